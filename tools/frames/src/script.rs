//! A readable script for frames, one event on a line:
//!
//! ```text
//! # two stations, one cart
//! start 2 1
//! enter 0 0          station, cart
//! send 1 0,3 A1B2    station, carts (- for none), text in hexadecimal (- for none)
//! wire 1 0           from, to
//! radio 0 0          station, cart
//! move 0 1           cart, to
//! steady 0 1         cart, 1 for steady or 0 for not
//! group 3 0,1        group, carts (- undefines it)
//! gsend 1 3 A1B2     station, group, text: a send to the members of the group
//! long 1 0,3 A1B2..  station, carts, text of 33 to 512 octets
//! retire 0           cart
//! octets F0FF        octets as they stand, for what is no frame
//! ```
//!
//! What follows a `#` is a comment. Script and stream say the same: `show` writes the octets from
//! a refused frame on as one `octets` line, and `script` gives back the stream that was shown.

use std::fmt::Write;

use plain::floor::{carts_of, LONG, TEXT};
use plain::frames::{put, Event, Reader, Taken};
use plain::{CartNo, GroupNo, StationNo};

/// What is wrong with a script, and on which line, counted from 1.
#[derive(Clone, Debug, PartialEq, Eq)]
pub struct Mistake {
    pub line: usize,
    pub what: String,
}

impl std::fmt::Display for Mistake {
    fn fmt(&self, f: &mut std::fmt::Formatter) -> std::fmt::Result {
        write!(f, "line {}: {}", self.line, self.what)
    }
}

/// The frames of a script.
pub fn script(text: &str) -> Result<Vec<u8>, Mistake> {
    let mut octets = Vec::new();
    for (index, line) in text.lines().enumerate() {
        let line = line.split('#').next().unwrap_or_default();
        let words: Vec<&str> = line.split_whitespace().collect();
        if !words.is_empty() {
            one_line(&words, &mut octets).map_err(|what| Mistake { line: index + 1, what })?;
        }
    }
    Ok(octets)
}

fn one_line(words: &[&str], out: &mut Vec<u8>) -> Result<(), String> {
    let text;
    let event = match *words {
        ["start", stations, carts] => Event::Start {
            stations: number("stations", stations, 1, 16)?,
            carts: number("carts", carts, 1, 64)?,
        },
        ["enter", at, which] => Event::Enter { station: station(at)?, cart: cart(which)? },
        ["send", at, carts, octets] => {
            text = text_of(octets)?;
            Event::Send { station: station(at)?, set: set(carts)?, text: &text }
        }
        ["wire", from, to] => Event::Wire { from: station(from)?, to: station(to)? },
        ["radio", at, which] => Event::Radio { station: station(at)?, cart: cart(which)? },
        ["move", which, to] => Event::Move { cart: cart(which)?, to: station(to)? },
        ["steady", which, flag] => {
            Event::Steady { cart: cart(which)?, steady: number("flag", flag, 0, 1)? == 1 }
        }
        ["group", which, carts] => Event::Group { group: group(which)?, set: set(carts)? },
        ["gsend", at, to, octets] => {
            text = text_of(octets)?;
            Event::GroupSend { station: station(at)?, group: group(to)?, text: &text }
        }
        ["long", at, carts, octets] => {
            text = long_text_of(octets)?;
            Event::LongSend { station: station(at)?, set: set(carts)?, text: &text }
        }
        ["retire", which] => Event::Retire { cart: cart(which)? },
        ["octets", octets] => {
            out.extend(hexadecimal(octets)?);
            return Ok(());
        }
        [word, ..] => return Err(wanted(word)),
        [] => return Ok(()),
    };
    put(&event, out);
    Ok(())
}

/// What is wrong with a line that is no event: the words that do not fit, or the event's name.
fn wanted(word: &str) -> String {
    let words = match word {
        "start" => "start STATIONS CARTS",
        "enter" => "enter STATION CART",
        "send" => "send STATION CARTS TEXT",
        "wire" => "wire FROM TO",
        "radio" => "radio STATION CART",
        "move" => "move CART TO",
        "steady" => "steady CART FLAG",
        "long" => "long STATION CARTS TEXT",
        "retire" => "retire CART",
        "octets" => "octets HEXADECIMAL",
        "group" => "group GROUP CARTS",
        "gsend" => "gsend STATION GROUP TEXT",
        _ => return format!("no event is called {word:?}"),
    };
    format!("wanted: {words}")
}

fn number(what: &str, word: &str, least: u8, most: u8) -> Result<u8, String> {
    match word.parse() {
        Ok(n) if (least..=most).contains(&n) => Ok(n),
        _ => Err(format!("{what}: {word:?} is not a number from {least} to {most}")),
    }
}

fn station(word: &str) -> Result<StationNo, String> {
    number("station", word, 0, 15).map(StationNo)
}

fn cart(word: &str) -> Result<CartNo, String> {
    number("cart", word, 0, 63).map(CartNo)
}

fn group(word: &str) -> Result<GroupNo, String> {
    number("group", word, 0, 15).map(GroupNo)
}

fn text_of(word: &str) -> Result<Vec<u8>, String> {
    let text = hexadecimal(word)?;
    if text.len() > TEXT {
        return Err(format!("a text of {} octets, longer than {TEXT}", text.len()));
    }
    Ok(text)
}

fn long_text_of(word: &str) -> Result<Vec<u8>, String> {
    let text = hexadecimal(word)?;
    if !(TEXT + 1..=LONG).contains(&text.len()) {
        return Err(format!("a long text of {} octets, not of {} to {LONG}", text.len(), TEXT + 1));
    }
    Ok(text)
}

fn set(word: &str) -> Result<u64, String> {
    if word == "-" {
        return Ok(0);
    }
    let mut set = 0;
    for word in word.split(',') {
        let alone = cart(word)?.alone();
        if set & alone != 0 {
            return Err(format!("cart {word} is named twice"));
        }
        set |= alone;
    }
    Ok(set)
}

fn hexadecimal(word: &str) -> Result<Vec<u8>, String> {
    if word == "-" {
        return Ok(Vec::new());
    }
    let digits: Option<Vec<u8>> =
        word.chars().map(|digit| digit.to_digit(16).map(|value| value as u8)).collect();
    match digits {
        Some(digits) if digits.len() % 2 == 0 => {
            Ok(digits.chunks(2).map(|pair| pair[0] << 4 | pair[1]).collect())
        }
        _ => Err(format!("{word:?} is not hexadecimal, two digits for each octet")),
    }
}

/// The script of a stream.
pub fn show(octets: &[u8]) -> String {
    let mut text = String::new();
    let mut reader = Reader::new(octets);
    loop {
        match reader.take() {
            Taken::Event(event) => text += &show_event(&event),
            Taken::End => return text,
            Taken::Refused(refusal) => {
                let rest = show_octets(&octets[reader.position()..]);
                let _ = write!(text, "octets {rest} # refusal {}", refusal.number());
                text.push('\n');
                return text;
            }
        }
        text.push('\n');
    }
}

/// One event as a script has it.
pub fn show_event(event: &Event) -> String {
    match *event {
        Event::Start { stations, carts } => format!("start {stations} {carts}"),
        Event::Enter { station, cart } => format!("enter {} {}", station.0, cart.0),
        Event::Send { station, set, text } => {
            format!("send {} {} {}", station.0, show_set(set), show_octets(text))
        }
        Event::Wire { from, to } => format!("wire {} {}", from.0, to.0),
        Event::Radio { station, cart } => format!("radio {} {}", station.0, cart.0),
        Event::Move { cart, to } => format!("move {} {}", cart.0, to.0),
        Event::Steady { cart, steady } => format!("steady {} {}", cart.0, steady as u8),
        Event::Group { group, set } => format!("group {} {}", group.0, show_set(set)),
        Event::GroupSend { station, group, text } => {
            format!("gsend {} {} {}", station.0, group.0, show_octets(text))
        }
        Event::LongSend { station, set, text } => {
            format!("long {} {} {}", station.0, show_set(set), show_octets(text))
        }
        Event::Retire { cart } => format!("retire {}", cart.0),
    }
}

fn show_set(set: u64) -> String {
    let carts: Vec<String> = carts_of(set).map(|cart| cart.0.to_string()).collect();
    if carts.is_empty() {
        return "-".into();
    }
    carts.join(",")
}

fn show_octets(octets: &[u8]) -> String {
    if octets.is_empty() {
        return "-".into();
    }
    octets.iter().fold(String::with_capacity(2 * octets.len()), |mut text, octet| {
        let _ = write!(text, "{octet:02X}");
        text
    })
}

#[cfg(test)]
mod tests {
    use super::*;

    fn mistake(text: &str) -> String {
        script(text).unwrap_err().to_string()
    }

    #[test]
    fn comments_and_blank_lines() {
        let plain = script("start 2 1\nsend 1 0,3 a1B2\n").unwrap();
        let loose = script("# a floor\n\n  start 2 1 # two\r\n\t\n send 1 3,0  A1b2").unwrap();
        assert_eq!(plain, loose);
        assert_eq!(show(&plain), "start 2 1\nsend 1 0,3 A1B2\n");
        assert_eq!(script("\n# nothing\n").unwrap(), []);
    }

    #[test]
    fn empty_sets_and_texts() {
        let text = "send 15 - -\nsend 0 63 -\nsend 0 - 00\n";
        assert_eq!(show(&script(text).unwrap()), text);
    }

    #[test]
    fn flags() {
        let text = "steady 63 0\nsteady 0 1\n";
        assert_eq!(show(&script(text).unwrap()), text);
        assert_eq!(script(text).unwrap()[..3], [0x60, 0xFC, 0]);
        assert_eq!(mistake("steady 0 2"), "line 1: flag: \"2\" is not a number from 0 to 1");
        assert_eq!(mistake("steady 0"), "line 1: wanted: steady CART FLAG");
    }

    #[test]
    fn groups() {
        let text = "group 15 0,63\ngroup 0 -\ngsend 2 15 A1\ngsend 0 0 -\n";
        assert_eq!(show(&script(text).unwrap()), text);
        assert_eq!(script("group 3 1").unwrap()[..3], [0x70, 0, 0xC0]);
        assert_eq!(mistake("group 16 -"), "line 1: group: \"16\" is not a number from 0 to 15");
        assert_eq!(mistake("gsend 0 0"), "line 1: wanted: gsend STATION GROUP TEXT");
        let long = format!("gsend 0 1 {}", "00".repeat(33));
        assert_eq!(mistake(&long), "line 1: a text of 33 octets, longer than 32");
    }

    #[test]
    fn long_texts() {
        let text = format!("long 15 - {}\nlong 0 63 {}\n", "A1".repeat(33), "0F".repeat(512));
        assert_eq!(show(&script(&text).unwrap()), text);
        assert_eq!(script(&text).unwrap()[..8], [0x9F, 0, 0, 0, 0, 0, 0, 33]);
        for length in [0, 32, 513] {
            let line = format!("long 0 1 -{}", "00".repeat(length)).replace("-0", "0");
            let wanted = format!("line 1: a long text of {length} octets, not of 33 to 512");
            assert_eq!(mistake(&line), wanted);
        }
        assert_eq!(mistake("long 0 1"), "line 1: wanted: long STATION CARTS TEXT");
    }

    #[test]
    fn retirements() {
        let text = "retire 63\nretire 0\n";
        assert_eq!(show(&script(text).unwrap()), text);
        assert_eq!(script(text).unwrap()[..3], [0xA0, 0xFC, 0]);
        assert_eq!(mistake("retire"), "line 1: wanted: retire CART");
    }

    #[test]
    fn mistakes_name_the_line() {
        assert_eq!(mistake("\nwait 1"), "line 2: no event is called \"wait\"");
        assert_eq!(mistake("start 2"), "line 1: wanted: start STATIONS CARTS");
        assert_eq!(
            mistake("start 2 1\nwire 0 16"),
            "line 2: station: \"16\" is not a number from 0 to 15"
        );
        assert_eq!(mistake("start 17 1"), "line 1: stations: \"17\" is not a number from 1 to 16");
        assert_eq!(mistake("enter 0 64"), "line 1: cart: \"64\" is not a number from 0 to 63");
        assert_eq!(mistake("enter 0 -1"), "line 1: cart: \"-1\" is not a number from 0 to 63");
        assert_eq!(mistake("send 0 1,,2 -"), "line 1: cart: \"\" is not a number from 0 to 63");
        assert_eq!(mistake("send 0 1,1 -"), "line 1: cart 1 is named twice");
        assert_eq!(
            mistake("send 0 1 A"),
            "line 1: \"A\" is not hexadecimal, two digits for each octet"
        );
        assert_eq!(
            mistake("send 0 1 \u{e9}\u{e9}"),
            "line 1: \"\u{e9}\u{e9}\" is not hexadecimal, two digits for each octet"
        );
        let long = format!("send 0 1 {}", "00".repeat(33));
        assert_eq!(mistake(&long), "line 1: a text of 33 octets, longer than 32");
    }

    #[test]
    fn refused_frames_are_kept_as_octets() {
        for octets in [
            &[0xF0; 40][..],
            &[1],
            &[0x60, 0, 0x80, 0, 0, 0, 0, 0, 0, 0, 0, 0, 0, 0, 0, 0],
            &[0x20, 0, 33, 0, 0, 0, 0, 0, 0, 0, 0, 0, 0, 0, 0, 1],
        ] {
            let mut stream = script("start 3 3\nenter 2 2\n").unwrap();
            stream.extend(octets);
            assert_eq!(script(&show(&stream)).unwrap(), stream);
        }
    }
}
