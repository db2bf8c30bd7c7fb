//! The stored runs, by a method for each event: they print what the program `floor` prints.

mod common;

use mekhturia::{
    Cart, Carts, Controller, Floor, Product, Refusal, Report, SmallKit, Station, WholeFloor,
};
use std::fmt::Write;

/// The fields of a frame.
struct Frame<'a> {
    kind: u8,
    station: u64,
    cart: u64,
    other: u64,
    set: u64,
    text: &'a [u8],
}

/// The frame at the front of these octets and its size, or its refusal.
fn take_apart(octets: &[u8]) -> Result<(Frame<'_>, usize), u64> {
    let word = |at: usize| {
        octets.get(at..at + 8).map(|eight| u64::from_be_bytes(eight.try_into().unwrap()))
    };
    let (Some(head), Some(set)) = (word(0), word(8)) else { return Err(1) };
    let (kind, station, cart) = ((head >> 60) as u8, head >> 56 & 15, head >> 50 & 63);
    let (other, length, zero) = (head >> 46 & 15, head >> 40 & 63, head & 0xFF_FFFF_FFFF);
    let some = |fields: &[u64]| fields.iter().any(|field| *field != 0);
    let stray = match kind {
        0 | 1 | 4 => some(&[other, length, zero, set]),
        2 => some(&[cart, other, zero]),
        3 => some(&[cart, length, zero, set]),
        5 => some(&[station, length, zero, set]),
        6 => some(&[station, length, zero, set]) || other > 1,
        7 => some(&[station, cart, length, zero]),
        8 => some(&[cart, zero, set]),
        9 => some(&[cart, other, length, zero >> 16]),
        10 => some(&[station, other, length, zero, set]),
        _ => return Err(2),
    };
    let size = if kind == 9 { zero as usize } else { length as usize };
    if stray {
        return Err(3);
    }
    if kind == 9 && !(33..=512).contains(&size) || kind != 9 && size > 32 {
        return Err(4);
    }
    let text = octets.get(16..16 + size).ok_or(1u64)?;
    Ok((Frame { kind, station, cart, other, set, text }, 16 + size))
}

fn make<P: Product>(lab: &mut Controller<P>, f: &Frame) -> Result<Report, Refusal> {
    let (station, cart, carts) = (Station(f.station), Cart(f.cart), Carts(f.set));
    match f.kind {
        0 => lab.start(f.station + 1, f.cart + 1),
        1 => lab.enter(station, cart),
        2 => lab.send(station, carts, f.text),
        3 => lab.wire(station, Station(f.other)),
        4 => lab.radio(station, cart),
        5 => lab.move_cart(cart, Station(f.other)),
        6 => lab.flag(cart, f.other == 1),
        7 => lab.group(f.other, carts),
        8 => lab.send_group(station, f.other, f.text),
        9 => lab.send_long(station, carts, f.text),
        _ => lab.retire(cart),
    }
}

fn by_events<P: Product>(mut octets: &[u8]) -> String {
    let (mut lab, mut printed) = (Controller::<P>::new(), String::new());
    for index in 0.. {
        if octets.is_empty() {
            break;
        }
        let (frame, size) = match take_apart(octets) {
            Ok(taken) => taken,
            Err(number) => {
                writeln!(printed, "{index} no {number}").unwrap();
                break;
            }
        };
        match make(&mut lab, &frame) {
            Ok(report) => writeln!(printed, "{index} {report}").unwrap(),
            Err(refusal) => writeln!(printed, "{index} no {}", refusal.number()).unwrap(),
        }
        octets = &octets[size..];
    }
    printed
}

#[test]
fn floor_by_events() {
    common::all("runs", by_events::<WholeFloor>);
}

#[test]
fn kit_by_events() {
    common::all("demos", by_events::<SmallKit>);
}

#[test]
fn a_clone_is_a_floor_of_its_own() {
    let mut floor = Floor::new();
    floor.start(2, 1).unwrap();
    let mut other = floor.clone();
    other.enter(Station(0), Cart(0)).unwrap();
    assert_eq!(other.enter(Station(0), Cart(0)), Err(Refusal::Entered));
    assert!(floor.enter(Station(1), Cart(0)).is_ok());
}

#[test]
fn any_numbers() {
    let mut floor = Floor::new();
    assert_eq!(floor.quiet(), Err(Refusal::Floor));
    assert_eq!(floor.start(u64::MAX, 1), Err(Refusal::Limits));
    floor.start(16, 64).unwrap();
    assert_eq!(floor.enter(Station(u64::MAX), Cart(0)), Err(Refusal::Station));
    assert_eq!(floor.enter(Station(0), Cart(u64::MAX)), Err(Refusal::Cart));
    assert_eq!(floor.group(u64::MAX, Carts(0)), Err(Refusal::Group));
    assert_eq!(floor.send_group(Station(0), u64::MAX, b"x"), Err(Refusal::Group));
    assert_eq!(floor.text_of(Station(0), u64::MAX), Err(Refusal::NotHeld));
    assert_eq!(floor.retire(Cart(64)), Err(Refusal::Cart));
    assert_eq!(floor.send(Station(0), Carts(1), &[0; 33]), Err(Refusal::Text));
    assert_eq!(floor.send_long(Station(0), Carts(1), &[0; 513]), Err(Refusal::Text));
}
