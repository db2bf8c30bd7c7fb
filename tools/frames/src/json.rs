//! Texts, lists and objects in JSON, written so that they can stand within a page.

/// A text. What could end a script in a page is written by its number.
pub fn text(words: &str) -> String {
    let mut said = String::with_capacity(words.len() + 2);
    said.push('"');
    for letter in words.chars() {
        match letter {
            '"' => said.push_str("\\\""),
            '\\' => said.push_str("\\\\"),
            '<' => said.push_str("\\u003c"),
            letter if letter < ' ' => said.push_str(&format!("\\u{:04x}", letter as u32)),
            letter => said.push(letter),
        }
    }
    said.push('"');
    said
}

/// A list of what is in JSON already.
pub fn list(items: impl IntoIterator<Item = String>) -> String {
    let items: Vec<String> = items.into_iter().collect();
    format!("[{}]", items.join(","))
}

/// An object of texts.
pub fn object<'a>(pairs: impl IntoIterator<Item = (&'a String, &'a String)>) -> String {
    let pairs: Vec<String> =
        pairs.into_iter().map(|(name, said)| format!("{}:{}", text(name), text(said))).collect();
    format!("{{{}}}", pairs.join(","))
}

#[cfg(test)]
mod tests {
    use super::*;

    #[test]
    fn texts_that_would_end_a_script() {
        assert_eq!(text("a</script>\"\\\n"), "\"a\\u003c/script>\\\"\\\\\\u000a\"");
        assert_eq!(list([text("a"), "1".into()]), "[\"a\",1]");
    }
}
