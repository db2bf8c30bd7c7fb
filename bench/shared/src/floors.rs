//! Floors that events reach, made with the plain peer: full-size ones of 16 stations, 64 carts and 32 held messages, and random ones.

use crate::numbers::Numbers;
use plain::{CartNo, Floor, GroupNo, StationNo};

const CARTS: u8 = 64;
const HELD: u8 = 32;
const GROUPS: u8 = 16;

fn started(stations: u8, carts: u8) -> Floor {
    let mut floor = Floor::new();
    floor.start(stations, carts).expect("the size is one that a floor may have");
    floor
}

/// How many records are on the lines.
pub fn records(floor: &Floor) -> usize {
    let n = floor.stations();
    (0..n).flat_map(|i| (0..n).map(move |j| (i, j))).map(|(i, j)| on_line(floor, i, j)).sum()
}

fn on_line(floor: &Floor, from: u8, to: u8) -> usize {
    floor.on_line(StationNo(from), StationNo(to))
}

/// Handles all that is on the lines, and what that puts there.
fn settle(floor: &mut Floor) {
    let n = floor.stations();
    while records(floor) > 0 {
        for i in 0..n {
            for j in 0..n {
                while floor.wire(StationNo(i), StationNo(j)).is_ok() {}
            }
        }
    }
}

/// A text of any length that one may have.
pub fn some_text(numbers: &mut Numbers) -> Vec<u8> {
    (0..1 + numbers.below(32)).map(|_| numbers.next() as u8).collect()
}

/// A long text: of any length, or one of the longest, so that the store fills.
pub fn some_table(numbers: &mut Numbers) -> Vec<u8> {
    let size = if numbers.below(3) == 0 { 512 } else { 33 + numbers.below(480) };
    (0..size).map(|_| numbers.next() as u8).collect()
}

/// Defines all groups, with any carts that have entered.
fn define_groups(floor: &mut Floor) {
    let mut numbers = Numbers(0x6709);
    for group in 0..GROUPS {
        let set = floor.entered() & numbers.next();
        floor.set_group(GroupNo(group), set).expect("its members have entered");
    }
}

/// Full size with few records, and with so many held messages: all are buffered everywhere, some carts have theirs, and the last hand-overs
/// and moves are on the lines.
pub fn few(held: u8) -> Floor {
    let mut numbers = Numbers(0x5eed);
    let mut floor = started(16, CARTS);
    for c in 0..CARTS {
        floor.enter(StationNo(c % 16), CartNo(c)).expect("it has not entered");
    }
    define_groups(&mut floor);
    for m in 0..held {
        let set = numbers.next() | 1 << (m + 7);
        floor.send(StationNo(m % 16), set, &some_text(&mut numbers)).expect("there is room");
    }
    settle(&mut floor);
    for _ in 0..600 {
        let (t, c) = (numbers.below(16) as u8, numbers.below(64) as u8);
        let _ = floor.radio(StationNo(t), CartNo(c), &mut [0; 512]);
        settle(&mut floor);
    }
    while records(&floor) < 30 {
        let (t, c) = (numbers.below(16) as u8, numbers.below(64) as u8);
        let _ = floor.radio(StationNo(t), CartNo(c), &mut [0; 512]);
        if numbers.below(50) == 0 {
            let _ = floor.move_cart(CartNo(c), StationNo(t));
        }
    }
    floor
}

/// A cart goes from one station to another.
fn hand_off(floor: &mut Floor, cart: u8, from: u8, to: u8) {
    floor.move_cart(CartNo(cart), StationNo(to)).expect("it is at the other");
    floor.wire(StationNo(to), StationNo(from)).expect("its deregister is there");
    floor.wire(StationNo(from), StationNo(to)).expect("its register is there");
}

/// Full size with many records: every cart comes alone to a station where all messages are buffered, and acknowledges each in an ack list
/// of its own; the multicasts to the other stations stay on the lines.
pub fn many() -> Floor {
    const GATE: u8 = 14;
    const END: u8 = 15;
    let mut numbers = Numbers(0x5eed);
    let mut floor = started(16, CARTS);
    for c in 0..CARTS {
        floor.enter(StationNo(GATE), CartNo(c)).expect("it has not entered");
    }
    define_groups(&mut floor);
    for m in 0..HELD {
        floor.send(StationNo(m % 8), u64::MAX, &some_text(&mut numbers)).expect("there is room");
    }
    for from in 0..8 {
        for to in [8, 9] {
            while floor.wire(StationNo(from), StationNo(to)).is_ok() {}
        }
    }
    for c in 0..CARTS {
        let here = 8 + c % 2;
        hand_off(&mut floor, c, GATE, here);
        for _ in 0..HELD {
            floor.radio(StationNo(here), CartNo(c), &mut [0; 512]).expect("it is queued");
        }
        hand_off(&mut floor, c, here, END);
    }
    for c in 60..CARTS {
        floor.move_cart(CartNo(c), StationNo(c - 50)).expect("it is at the end");
    }
    floor
}

/// What random events leave.
pub fn random(seed: u64) -> Floor {
    let mut numbers = Numbers(0x9e37_79b9_7f4a_7c15 ^ seed << 20);
    let (n, k) = (1 + numbers.below(16), 1 + numbers.below(64));
    let mut floor = started(n as u8, k as u8);
    for _ in 0..500 + 100 * numbers.below(60) {
        let (s, t) = (StationNo(numbers.below(n) as u8), StationNo(numbers.below(n) as u8));
        let cart = CartNo(numbers.below(k) as u8);
        // A refused event is none.
        let group = GroupNo(numbers.below(GROUPS as u64) as u8);
        let _ = match numbers.below(15) {
            0 => floor.enter(s, cart),
            1 => {
                let set = floor.entered() & numbers.next() & numbers.next();
                floor.send(s, set, &some_text(&mut numbers))
            }
            2 => floor.move_cart(cart, t),
            3..=5 => floor.radio(s, cart, &mut [0; 512]).map(|(step, _)| step),
            6 if numbers.below(3) == 0 => floor.set_group(group, floor.entered() & numbers.next()),
            6 => floor.send_to_group(s, group, &some_text(&mut numbers)),
            7 => floor.send_long(s, floor.entered() & numbers.next(), &some_table(&mut numbers)),
            8 => floor.retire(cart),
            _ => floor.wire(s, t),
        };
    }
    floor
}
