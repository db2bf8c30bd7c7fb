//! The page of a run: what is in it. What a browser makes of it is in browser.rs.

mod common;

use common::stored;
use frames::cells::{cells, Cells};
use frames::generate::{stream, Wishes};
use frames::page::page;
use frames::received::received;
use frames::walk::Walk;
use plain::Limits;

/// JSON, as far as the page needs it.
#[derive(Clone, Debug, PartialEq)]
enum Json {
    Number(f64),
    Text(String),
    List(Vec<Json>),
    Object(Vec<(String, Json)>),
}

impl Json {
    fn at(&self, name: &str) -> &Json {
        let Json::Object(pairs) = self else { panic!("no object: {self:?}") };
        &pairs.iter().find(|(other, _)| other == name).unwrap().1
    }

    fn list(&self) -> &[Json] {
        let Json::List(items) = self else { panic!("no list: {self:?}") };
        items
    }

    fn text(&self) -> &str {
        let Json::Text(text) = self else { panic!("no text: {self:?}") };
        text
    }

    fn number(&self) -> usize {
        let Json::Number(number) = self else { panic!("no number: {self:?}") };
        *number as usize
    }
}

/// Reads a value from the front of a text, and what follows it.
fn value(text: &str) -> (Json, &str) {
    let text = text.trim_start();
    match text.as_bytes()[0] {
        b'"' => {
            let (said, rest) = quoted(&text[1..]);
            (Json::Text(said), rest)
        }
        b'[' => {
            let (items, rest) = items(&text[1..], ']', value);
            (Json::List(items), rest)
        }
        b'{' => {
            let (pairs, rest) = items(&text[1..], '}', |text| {
                let (name, rest) = quoted(text.trim_start().strip_prefix('"').unwrap());
                let (said, rest) = value(rest.strip_prefix(':').unwrap());
                ((name, said), rest)
            });
            (Json::Object(pairs), rest)
        }
        _ => {
            let end = text.find(|c: char| !c.is_ascii_digit() && c != '.').unwrap_or(text.len());
            (Json::Number(text[..end].parse().unwrap()), &text[end..])
        }
    }
}

fn items<T>(text: &str, end: char, one: impl Fn(&str) -> (T, &str)) -> (Vec<T>, &str) {
    let (mut found, mut rest) = (Vec::new(), text.trim_start());
    while !rest.starts_with(end) {
        let (item, after) = one(rest);
        found.push(item);
        rest = after.trim_start();
        rest = rest.strip_prefix(',').unwrap_or(rest).trim_start();
    }
    (found, &rest[1..])
}

/// The rest of a text that has begun.
fn quoted(text: &str) -> (String, &str) {
    let (mut said, mut letters) = (String::new(), text.char_indices());
    while let Some((at, letter)) = letters.next() {
        match letter {
            '"' => return (said, &text[at + 1..]),
            '\\' => match letters.next().unwrap().1 {
                'u' => {
                    let digits: String = letters.by_ref().take(4).map(|(_, digit)| digit).collect();
                    let number = u32::from_str_radix(&digits, 16).unwrap();
                    said.push(char::from_u32(number).unwrap());
                }
                letter => said.push(letter),
            },
            letter => said.push(letter),
        }
    }
    panic!("a text that does not end");
}

/// What the page's script reads.
fn data(page: &str) -> Json {
    let begin = "<script type=\"application/json\" id=\"run\">";
    let text = page.split(begin).nth(1).unwrap().split("</script>").next().unwrap();
    let (read, rest) = value(text);
    assert_eq!(rest.trim(), "");
    read
}

/// Replays what a page has of a run and compares every step with the floor itself.
fn assert_replays(name: &str, octets: &[u8], limits: Limits) {
    let page = page(octets, limits, |_| ()).unwrap();
    let run = data(&page);
    let mut walk = Walk::new(octets, limits);
    let mut replayed = Cells::new();
    for (k, changes) in run.at("changes").list().iter().enumerate() {
        let Json::Object(changes) = changes else { panic!("no object: {changes:?}") };
        for (cell, said) in changes {
            match said.text() {
                "" => drop(replayed.remove(cell).expect("a cell that was there")),
                said => drop(replayed.insert(cell.clone(), said.into())),
            }
        }
        walk.step().unwrap().unwrap();
        assert_eq!(replayed, cells(walk.floor()), "{name}, frame {k}");
    }
    assert!(walk.step().unwrap().is_none(), "{name}: every frame has its changes");
    assert_eq!(run.at("stations").number(), walk.floor().stations() as usize);
    assert_receipts(name, octets, limits, &run);
}

/// What carts received by the page is what they received.
fn assert_receipts(name: &str, octets: &[u8], limits: Limits, run: &Json) {
    let received = received(octets, limits).unwrap();
    for (cart, receipts) in received.carts.iter().enumerate() {
        let entered = run.at("entries").list().iter();
        let mut entered = entered.filter(|entry| entry.list()[1].number() == cart);
        let from = entered.next_back().map_or(0, |entry| entry.list()[0].number());
        let of_cart = |receipt: &&Json| {
            receipt.list()[1].number() == cart && receipt.list()[0].number() >= from
        };
        let shown: Vec<(String, String)> = run
            .at("receipts")
            .list()
            .iter()
            .filter(of_cart)
            .map(|receipt| (receipt.list()[2].text().into(), receipt.list()[3].text().into()))
            .collect();
        let wanted: Vec<(String, String)> = receipts
            .iter()
            .map(|receipt| {
                let name = format!("{}:{}", receipt.initiator.0, receipt.number);
                (name, frames::words::digits(&receipt.text))
            })
            .collect();
        assert_eq!(shown, wanted, "{name}, cart {cart}");
    }
}

#[test]
fn the_page_replays_to_the_floor_after_every_frame() {
    let mut replayed = 0;
    for run in stored().iter().filter(|run| run.octets.len() < 30_000) {
        if page(&run.octets, run.limits, |_| ()).is_ok() {
            assert_replays(&run.name, &run.octets, run.limits);
            replayed += 1;
        }
    }
    assert!(replayed > 40, "{replayed} runs");
    let wishes = Wishes { groups: 20, long: 20, retire: 5, bad: 5, ..Wishes::default() };
    assert_replays("random", &stream(6, 2_000, wishes).0, Limits::FLOOR);
}

#[test]
fn the_page_is_one_file_and_loads_nothing() {
    let page = page(&stream(7, 300, Wishes::default()).0, Limits::FLOOR, |_| ()).unwrap();
    for word in ["http:", "https:", "src=", "href=", "@import", "url(", "fetch(", "XMLHttp"] {
        assert!(!page.contains(word), "{word}");
    }
    assert!(page.contains("default-src 'none'"));
    assert!(!page.contains("{{"));
}

#[test]
fn a_long_run_is_a_small_page() {
    let octets = stream(9, 3_000, Wishes::default()).0;
    let mut heard = Vec::new();
    let page = page(&octets, Limits::FLOOR, |read| heard.push(read)).unwrap();
    assert!(page.len() < 3_000_000, "{} octets", page.len());
    // It hears of every frame, the last one included.
    assert_eq!((heard.len(), heard.last()), (3_000, Some(&octets.len())));
}
