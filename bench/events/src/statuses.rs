//! The statuses of the library's calls: with another than `ANSWERED` nothing was touched.

use crate::event::Event;
use crate::proved::{self, ANSWERED, FLOOR, WORDS};
use plain::words::Words;
use plain::{CartNo, Floor, StationNo};
use shared::places::in_order;

const TOO_FEW_WORDS: u64 = 1;
const NO_SUCH_PRODUCT: u64 = 2;
const KIT: u64 = 1;

/// Two stations, a cart that a message waits for at the first, and a second cart that has not entered.
fn floor() -> Words {
    let mut floor = Floor::new();
    floor.start(2, 2).expect("the size is one that a floor may have");
    floor.enter(StationNo(0), CartNo(0)).expect("it has not entered");
    floor.send(StationNo(1), 1, &[0xa1]).expect("there is room");
    floor.wire(StationNo(1), StationNo(0)).expect("the message is there");
    floor.words(in_order)
}

/// One event of each kind. A started floor refuses a start, group 3 is not defined, and the held message names the cart that is to be retired.
fn events() -> [Event; 12] {
    [
        Event::Start(2, 2),
        Event::Enter(1, 1),
        Event::Send(0, 1, vec![1]),
        Event::Wire(1, 1),
        Event::Radio(0, 0),
        Event::Move(0, 1),
        Event::Flag(0, false),
        Event::Group(3, 1),
        Event::SendLong(0, 1, vec![2; 33]),
        Event::SendGroup(0, 3, vec![1]),
        Event::Retire(0),
        Event::Quiet,
    ]
}

/// The call comes to this status and touches nothing.
fn untouched(product: u64, words: usize, event: &Event, expected: u64) {
    let (before, mut buffer, mut out) = (floor(), [7; 512], vec![9; words]);
    let mut w = before.clone();
    let status = proved::status(product, &mut w, event, &mut buffer, &mut out);
    assert_eq!(status, expected, "{words} words for product {product}");
    assert!(w == before && buffer == [7; 512] && out == vec![9; words]);
}

#[test]
fn too_few_words() {
    for event in events() {
        for words in 0..WORDS {
            untouched(FLOOR, words, &event, TOO_FEW_WORDS);
            untouched(KIT, words, &event, TOO_FEW_WORDS);
        }
        untouched(KIT + 1, WORDS - 1, &event, TOO_FEW_WORDS);
    }
}

#[test]
fn no_such_product() {
    for event in events() {
        for product in [2, 3, 1 << 32, u64::MAX] {
            untouched(product, WORDS, &event, NO_SUCH_PRODUCT);
        }
    }
}

/// With eight words, and for one of the two products, every call is answered: by the kit this floor has parts of the wrong length.
#[test]
fn answered() {
    for event in events() {
        let (mut w, mut out) = (floor(), [9; WORDS]);
        assert_eq!(proved::status(KIT, &mut w, &event, &mut [7; 512], &mut out), ANSWERED);
        assert!(w == floor() && out[0] == 5);
        assert_eq!(proved::status(FLOOR, &mut w, &event, &mut [7; 512], &mut out), ANSWERED);
        let refused = match event {
            Event::Start(..) => 6,
            Event::SendGroup(..) => 26,
            Event::Retire(..) => 29,
            _ => 0,
        };
        assert_eq!(out[0], refused);
    }
}

#[test]
fn the_reading_call() {
    let mut w = floor();
    let mut few = [9; WORDS - 1];
    assert_eq!(proved::text_status(FLOOR, &mut w, 1, 0, &mut few), TOO_FEW_WORDS);
    assert_eq!(few, [9; WORDS - 1]);
    let mut out = [9; WORDS];
    assert_eq!(proved::text_status(KIT + 1, &mut w, 1, 0, &mut out), NO_SUCH_PRODUCT);
    assert_eq!(out, [9; WORDS]);
    assert_eq!(proved::text_status(KIT, &mut w, 1, 0, &mut out), ANSWERED);
    assert_eq!(out, [5, 0, 0, 0, 9, 9, 9, 9]);
    assert_eq!(proved::text_status(FLOOR, &mut w, 1, 0, &mut out), ANSWERED);
    assert_eq!(out, [0, 0, 0, 1, 9, 9, 9, 9]);
    assert!(w == floor());
}
