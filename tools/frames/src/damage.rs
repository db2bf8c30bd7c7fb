//! Streams for comparing two programs: clean, wild, damaged and senseless.

use plain::floor::{GROUPS, LONG, TEXT};
use plain::frames::{put, Event, Reader, Taken, FRAME, KINDS};
use plain::{CartNo, GroupNo, StationNo};

use crate::generate::{self, Wishes};
use crate::random::Random;

/// A stream of some kind.
pub fn any_stream(random: &mut Random) -> Vec<u8> {
    let mut octets = match random.below(20) {
        0 => senseless(random),
        1..=3 => wild(random),
        4 => return busy(random, 20_000),
        5..=12 => busy(random, 2_000),
        _ => busy(random, 200),
    };
    if random.once_in(2) {
        for _ in 0..1 + random.below(4) {
            damage(&mut octets, random);
        }
    }
    octets
}

/// Random octets, the first of them often of a known kind.
fn senseless(random: &mut Random) -> Vec<u8> {
    let length = random.below(100);
    let mut octets: Vec<u8> = (0..length).map(|_| random.octets() as u8).collect();
    if let Some(first) = octets.first_mut() {
        if random.once_in(2) {
            *first = (random.below(KINDS) as u8) << 4 | (*first & 15);
        }
    }
    octets
}

/// A size of floor, small ones more often: there the events meet each other.
fn size(random: &mut Random) -> (u8, u8) {
    match random.below(4) {
        0 => (16, 64),
        1 => (1 + random.below(16) as u8, 1 + random.below(64) as u8),
        _ => (1 + random.below(4) as u8, 1 + random.below(5) as u8),
    }
}

/// A stream of the generator.
fn busy(random: &mut Random, most: usize) -> Vec<u8> {
    let (stations, carts) = size(random);
    let kit = random.once_in(4);
    let (stations, carts) = if kit { (stations.min(4), carts.min(8)) } else { (stations, carts) };
    let crowded = random.once_in(4);
    let wishes = Wishes {
        stations,
        carts,
        held: 1 + random.below(40),
        lines: 1 + random.below(if crowded { 600 } else { 60 }),
        bad: [0, 2, 20, 60][random.below(4)],
        groups: [0, 10, 60][random.below(3)],
        long: [0, 10, 60][random.below(3)],
        retire: [0, 2, 20][random.below(3)],
        kit,
    };
    let count = 1 + random.below(most);
    generate::stream(random.octets(), count, wishes).0
}

/// Well-formed frames with random fields, also before a start and off the floor.
fn wild(random: &mut Random) -> Vec<u8> {
    let (stations, carts) = size(random);
    let count = 1 + random.below(1_000);
    let late = random.once_in(8);
    let mut octets = Vec::new();
    for index in 0..count {
        let beyond = random.once_in(50);
        let mut station = || random.below(if beyond { 16 } else { stations as usize }) as u8;
        let (station, to) = (StationNo(station()), StationNo(station()));
        let mut cart = || random.below(if beyond { 64 } else { carts as usize }) as u8;
        let (one, two) = (CartNo(cart()), CartNo(cart()));
        let long = random.octets().to_be_bytes().repeat(LONG / 8);
        let (text, long) =
            (&long[..random.below(TEXT + 1)], &long[..TEXT + 1 + random.below(LONG - TEXT)]);
        let group = GroupNo(random.below(if beyond { GROUPS } else { 3 }) as u8);
        let event = match random.below(25) {
            _ if index == 0 && !late => Event::Start { stations, carts },
            0 if random.once_in(10) => Event::Start { stations: station.0 + 1, carts: one.0 + 1 },
            0 | 1 => Event::Enter { station, cart: one },
            2 => Event::Send { station, set: one.alone() | two.alone(), text },
            3 => Event::Send { station, set: one.alone(), text },
            4 if random.once_in(4) => Event::Send { station, set: random.octets(), text },
            4..=5 => Event::Move { cart: one, to },
            6..=11 => Event::Radio { station, cart: one },
            // A third of the flags are not steady, so that most carts are.
            12 => Event::Steady { cart: one, steady: !random.once_in(3) },
            13 if random.once_in(8) => Event::Group { group, set: random.octets() },
            13 => Event::Group { group, set: one.alone() | two.alone() },
            14 => Event::GroupSend { station, group, text },
            15 => Event::LongSend { station, set: one.alone() | two.alone(), text: long },
            16 => Event::Retire { cart: one },
            _ => Event::Wire { from: station, to },
        };
        put(&event, &mut octets);
    }
    octets
}

/// Where the frames of a stream begin, as far as it can be taken apart, and where the last ends.
pub fn borders(octets: &[u8]) -> Vec<usize> {
    let mut reader = Reader::new(octets);
    let mut borders = vec![0];
    while let Taken::Event(_) = reader.take() {
        borders.push(reader.position());
    }
    borders
}

/// Changes a stream in one place.
fn damage(octets: &mut Vec<u8>, random: &mut Random) {
    if octets.is_empty() {
        return;
    }
    let borders = borders(octets);
    let frames = borders.len() - 1;
    let place = random.below(octets.len());
    // Where a frame begins, with a whole head behind it.
    let head = match frames {
        0 => None,
        _ => Some(borders[random.below(frames)]),
    };
    match (random.below(12), head) {
        (0, _) => octets[place] ^= 1 << random.below(8),
        (1, _) => octets[place] = random.octets() as u8,
        (2, _) => octets.truncate(place),
        (3, _) => drop(octets.drain(place..(place + 1 + random.below(20)).min(octets.len()))),
        (4, _) => {
            let new: Vec<u8> = (0..1 + random.below(20)).map(|_| random.octets() as u8).collect();
            octets.splice(place..place, new);
        }
        // A bit of a kind, a field, a length or a set.
        (5 | 6, Some(head)) => octets[head + random.below(3)] ^= 1 << random.below(8),
        // A bit of a long text's length.
        (7, Some(head)) if random.once_in(3) => {
            octets[head + 6 + random.below(2)] ^= 1 << random.below(8)
        }
        (7, Some(head)) => octets[head + 8 + random.below(8)] ^= 1 << random.below(8),
        (8, Some(head)) => octets[head + random.below(FRAME)] ^= 1 << random.below(8),
        // A frame left out, doubled, or moved to another place.
        (9, Some(_)) => {
            let at = random.below(frames);
            octets.drain(borders[at]..borders[at + 1]);
        }
        (10, Some(_)) => {
            let at = random.below(frames);
            let frame = octets[borders[at]..borders[at + 1]].to_vec();
            let to = borders[random.below(frames)];
            octets.splice(to..to, frame);
        }
        // The end cut within the last frame.
        _ => octets.truncate(octets.len() - 1 - random.below(octets.len().min(FRAME))),
    }
}
