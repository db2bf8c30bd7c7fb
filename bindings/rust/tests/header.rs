//! The crate says what include/mekhturia.h says.

use mekhturia::{Kind, Refusal, LINE, LONG_TEXT, TEXT};

fn header() -> String {
    let path = format!("{}/../../include/mekhturia.h", env!("CARGO_MANIFEST_DIR"));
    std::fs::read_to_string(path).unwrap()
}

/// A name as C has it, without its underscores.
fn spelled(prefix: &str, name: &dyn std::fmt::Debug) -> String {
    format!("{prefix}{name:?}").to_uppercase()
}

/// The numbers of the header that a comma, a blank or the line's end follows, by their names.
fn numbers(header: &str) -> impl Iterator<Item = (String, usize)> + '_ {
    header.lines().filter_map(|line| {
        let (name, rest) = line.trim().split_once(" = ")?;
        let number = rest.split([',', ' ']).next()?.parse().ok()?;
        Some((name.replace('_', ""), number))
    })
}

#[test]
fn refusals_are_those_of_the_header() {
    let header = header();
    let mut refusals = Refusal::ALL.iter();
    for line in header.lines().filter_map(|line| line.trim().strip_prefix("each(")) {
        let refusal = refusals.next().expect("the header has no refusal more");
        let (number, rest) = line.split_once(", ").unwrap();
        let (name, says) = rest.split_once(", \"").unwrap();
        assert_eq!(number, refusal.number().to_string());
        assert_eq!(name.replace('_', ""), spelled("MekhturiaRefused", refusal));
        assert_eq!(says.split('"').next(), Some(refusal.says()));
    }
    assert_eq!(refusals.next(), None);
}

#[test]
fn kinds_are_those_of_the_header() {
    let header = header();
    let found: Vec<_> =
        numbers(&header).filter(|(name, _)| name.starts_with("MEKHTURIAKIND")).collect();
    let kinds = Kind::ALL.iter().map(|kind| (spelled("MekhturiaKind", kind), *kind as usize));
    // MEKHTURIA_KIND itself is a word of an answer.
    assert_eq!(found[1..], kinds.collect::<Vec<_>>());
    assert_eq!(found[0].0, "MEKHTURIAKIND");
}

#[test]
fn lengths_are_those_of_the_header() {
    let header = header();
    for (name, length) in [("TEXT", TEXT), ("LONGTEXT", LONG_TEXT), ("LINE", LINE)] {
        let found = numbers(&header).find(|(found, _)| *found == format!("MEKHTURIA{name}"));
        assert_eq!(found.map(|(_, number)| number), Some(length), "{name}");
    }
}
