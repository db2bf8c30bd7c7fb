//! Phrases that the sentences and the pictures share.

use std::fmt::Write;

use plain::floor::carts_of;
use plain::view::Name;
use plain::Place;

/// Texts of more octets are shortened in sentences.
const WHOLE: usize = 16;
/// And in pictures.
const BRIEF: usize = 4;

/// A set of carts: "cart 3", "carts 0 and 2", "carts 0 to 5, 8 and 9".
pub fn carts(set: u64) -> String {
    match set.count_ones() {
        0 => "no cart".into(),
        1 => format!("cart {}", numbers(set)),
        _ => format!("carts {}", numbers(set)),
    }
}

/// The numbers of a set of carts; three and more in a row are said by the first and the last.
pub fn numbers(set: u64) -> String {
    let mut parts: Vec<(u8, u8)> = Vec::new();
    for cart in carts_of(set) {
        match parts.last_mut() {
            Some((_, last)) if *last + 1 == cart.0 => *last = cart.0,
            _ => parts.push((cart.0, cart.0)),
        }
    }
    let words = parts.into_iter().flat_map(|(first, last)| match last - first {
        0 => vec![first.to_string()],
        1 => vec![first.to_string(), last.to_string()],
        _ => vec![format!("{first} to {last}")],
    });
    listed(words.collect())
}

/// Words with commas, and "and" before the last.
pub fn listed(mut words: Vec<String>) -> String {
    match words.pop() {
        Some(last) if words.is_empty() => last,
        Some(last) => format!("{} and {last}", words.join(", ")),
        None => String::new(),
    }
}

/// Words at the beginning of a sentence.
pub fn capital(words: &str) -> String {
    let mut letters = words.chars();
    letters.next().map_or(String::new(), |first| first.to_uppercase().chain(letters).collect())
}

/// The verb that goes with a set of carts.
pub fn agree<'a>(set: u64, one: &'a str, many: &'a str) -> &'a str {
    if set.count_ones() == 1 {
        one
    } else {
        many
    }
}

/// "1 delete", "3 deletes".
pub fn counted(count: u64, what: &str) -> String {
    match count {
        1 => format!("1 {what}"),
        _ => format!("{count} {what}s"),
    }
}

/// A message in full: "correction 0 of station 1".
pub fn correction(name: Name) -> String {
    format!("correction {} of station {}", name.number.0, name.initiator.0)
}

/// Messages that stand in order of their initiators: "corrections 0 and 2 of station 1".
pub fn corrections(names: &[Name]) -> String {
    let of_station = |names: &[Name]| {
        let numbers: Vec<String> = names.iter().map(|name| name.number.0.to_string()).collect();
        let what = if numbers.len() == 1 { "correction" } else { "corrections" };
        format!("{what} {} of station {}", listed(numbers), names[0].initiator.0)
    };
    listed(names.chunk_by(|a, b| a.initiator == b.initiator).map(of_station).collect())
}

/// A message in short, as pictures have it: its initiator and its number.
pub fn short(name: Name) -> String {
    format!("{}:{}", name.initiator.0, name.number.0)
}

/// A text in hexadecimal; of a longer one the beginning and how long it is.
pub fn text(octets: &[u8]) -> String {
    if octets.len() <= WHOLE {
        return digits(octets);
    }
    format!("{}\u{2026} {} octets", digits(&octets[..WHOLE / 2]), octets.len())
}

/// A text as pictures have it: its beginning.
pub fn brief(octets: &[u8]) -> String {
    match octets.get(..BRIEF - 1) {
        Some(front) if octets.len() > BRIEF => digits(front) + "\u{2026}",
        _ => digits(octets),
    }
}

/// A text in hexadecimal, all of it; `-` if it is empty.
pub fn digits(octets: &[u8]) -> String {
    if octets.is_empty() {
        return "-".into();
    }
    octets.iter().fold(String::with_capacity(2 * octets.len()), |mut digits, octet| {
        let _ = write!(digits, "{octet:02x}");
        digits
    })
}

/// Where a cart is: "is at station 1".
pub fn place(place: Place) -> String {
    match place {
        Place::Outside => "is not on the floor".into(),
        Place::At(station) => format!("is at station {}", station.0),
        Place::Leaving(station) => format!("is leaving station {}", station.0),
        Place::Travelling => "is between two stations".into(),
    }
}

#[cfg(test)]
mod tests {
    use super::*;

    #[test]
    fn sets_of_carts() {
        let said = [
            (0, "no cart"),
            (1 << 63, "cart 63"),
            (3, "carts 0 and 1"),
            (0b1011, "carts 0, 1 and 3"),
            (0b11_0111_1111, "carts 0 to 6, 8 and 9"),
            (u64::MAX, "carts 0 to 63"),
        ];
        for (set, words) in said {
            assert_eq!(carts(set), words);
        }
    }

    #[test]
    fn texts() {
        assert_eq!(text(&[]), "-");
        assert_eq!(text(&[0x2B, 5]), "2b05");
        assert_eq!((brief(&[]), brief(&[1; 4])), ("-".into(), "01010101".into()));
        assert_eq!(brief(&[1; 5]), "010101\u{2026}");
        assert_eq!(text(&[0xAB; 16]), "ab".repeat(16));
        assert_eq!(text(&[0xAB; 512]), format!("{}\u{2026} 512 octets", "ab".repeat(8)));
    }
}
