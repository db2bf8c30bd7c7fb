//! Which event is tried next: often one that the floor can take, else any numbers, absurd ones among them.

use crate::event::Event;
use plain::floor::GROUPS;
use plain::words::MESSAGE_ROW;
use plain::{CartNo, Floor, GroupNo, Place, StationNo};
use shared::floors::some_table;
use shared::numbers::Numbers;

/// Mostly below n, now and then beside it, or far off.
fn near(numbers: &mut Numbers, n: u64) -> u64 {
    match numbers.below(40) {
        0 => n,
        1 => numbers.below(70),
        2 => [255, 256, 1 << 32, 1 << 63, u64::MAX][numbers.below(5) as usize],
        3 => numbers.next(),
        _ => numbers.below(n),
    }
}

/// Any octets: one time in ten more than a message may have.
fn text(numbers: &mut Numbers) -> Vec<u8> {
    let size = if numbers.below(10) == 0 { numbers.below(41) } else { numbers.below(33) };
    (0..size).map(|_| numbers.next() as u8).collect()
}

/// The same of a long send: one time in ten of any length.
fn table(numbers: &mut Numbers) -> Vec<u8> {
    match numbers.below(10) {
        0 => (0..numbers.below(600)).map(|_| numbers.next() as u8).collect(),
        1 => vec![7; [0, 32, 33, 512, 513][numbers.below(5) as usize]],
        _ => some_table(numbers),
    }
}

/// A buffer that takes every text, or none that is long, or some.
pub fn buffer(numbers: &mut Numbers) -> Vec<u8> {
    let size = match numbers.below(8) {
        0..=4 => 512,
        5 => numbers.below(41),
        6 => numbers.below(600),
        _ => [31, 32, 511, 513][numbers.below(4) as usize],
    };
    (0..size).map(|_| numbers.next() as u8).collect()
}

/// A set of carts of the floor: of those that entered, of all, or any.
fn set(numbers: &mut Numbers, floor: Option<&Floor>, k: u64) -> u64 {
    let entered = floor.map_or(u64::MAX, |f| f.entered());
    let all = u64::MAX >> (64 - k.clamp(1, 64));
    match numbers.below(12) {
        0 => 0,
        1 => numbers.next(),
        2 => all & numbers.next() & numbers.next() & numbers.next(),
        3 => entered,
        4 => 1 << numbers.below(64),
        _ => entered & numbers.next() & numbers.next(),
    }
}

/// A group to send to: mostly one that is defined, if the one that is looked at first or one behind it is.
fn group(numbers: &mut Numbers, floor: Option<&Floor>) -> u64 {
    const COUNT: u64 = GROUPS as u64;
    let any = near(numbers, COUNT);
    let from_any = (0..COUNT).map(|g| (any % COUNT + g) % COUNT);
    let defined = |f: &Floor| from_any.into_iter().find(|&g| f.group(GroupNo(g as u8)) != 0);
    match floor.and_then(defined) {
        Some(group) if numbers.below(4) > 0 => group,
        _ => any,
    }
}

/// A line with a record, if the one that is looked at first or one behind it has any.
fn line(numbers: &mut Numbers, floor: &Floor) -> Option<Event> {
    let n = floor.stations() as u64;
    let from = numbers.below(n * n);
    (0..n * n)
        .map(|k| ((from + k) % (n * n) / n, (from + k) % n))
        .find(|&(i, j)| floor.on_line(StationNo(i as u8), StationNo(j as u8)) > 0)
        .map(|(i, j)| Event::Wire(i, j))
}

/// A cart at the head of some queue.
fn receiver(numbers: &mut Numbers, floor: &Floor) -> Option<Event> {
    let n = floor.stations() as u64;
    let from = numbers.below(n);
    (0..n).map(|k| (from + k) % n).find_map(|t| {
        let queued = floor.head(StationNo(t as u8))?;
        let here = (0..64u64).filter(|&c| queued >> c & 1 == 1).find(|&c| {
            numbers.below(2) == 0 && floor.place(CartNo(c as u8)) == Place::At(StationNo(t as u8))
        })?;
        Some(Event::Radio(t, here))
    })
}

/// A cart at a station that no held message names, if the one that is looked at first or one behind it is such.
fn leaver(numbers: &mut Numbers, floor: &Floor) -> Option<Event> {
    let (k, free) = (floor.carts() as u64, floor.entered() & !floor.named());
    let from = numbers.below(k);
    let here = |c: u64| matches!(floor.place(CartNo(c as u8)), Place::At(_));
    (0..k).map(|c| (from + c) % k).find(|&c| free >> c & 1 == 1 && here(c)).map(Event::Retire)
}

/// An event on a floor of so many stations and carts. One that passes the form rule is started less often than another.
pub fn event(numbers: &mut Numbers, floor: Option<&Floor>, n: u64, k: u64) -> Event {
    let kind = match floor {
        None if numbers.below(5) == 0 => 0,
        _ => [0, 1, 1, 2, 2, 2, 3, 3, 3, 3, 3, 4, 4, 4, 5, 5, 6, 7, 7, 8, 8, 9, 9, 9, 10, 10, 11]
            [numbers.below(27) as usize],
    };
    if let (Some(floor), true) = (floor, numbers.below(4) > 0) {
        let sensible = match kind {
            3 => line(numbers, floor),
            4 => receiver(numbers, floor),
            10 => leaver(numbers, floor),
            _ => None,
        };
        if let Some(event) = sensible {
            return event;
        }
    }
    match kind {
        0 if numbers.below(2) == 0 => Event::Start(near(numbers, 17), near(numbers, 65)),
        0 => Event::Start(1 + numbers.below(16), 1 + numbers.below(64)),
        1 => Event::Enter(near(numbers, n), near(numbers, k)),
        2 => Event::Send(near(numbers, n), set(numbers, floor, k), text(numbers)),
        3 => Event::Wire(near(numbers, n), near(numbers, n)),
        4 => Event::Radio(near(numbers, n), near(numbers, k)),
        5 => Event::Move(near(numbers, k), near(numbers, n)),
        6 => Event::Flag(near(numbers, k), numbers.below(2) == 0),
        7 => Event::Group(near(numbers, GROUPS as u64), set(numbers, floor, k)),
        8 => Event::SendGroup(near(numbers, n), group(numbers, floor), text(numbers)),
        9 => Event::SendLong(near(numbers, n), set(numbers, floor, k), table(numbers)),
        10 => Event::Retire(near(numbers, k)),
        _ => Event::Quiet,
    }
}

/// A message to read: mostly one that is held, if any is, else any numbers.
pub fn message(numbers: &mut Numbers, messages: &[u64], n: u64) -> (u64, u64) {
    let held: Vec<&[u64]> = messages.chunks_exact(MESSAGE_ROW).filter(|row| row[4] != 0).collect();
    match held.len() as u64 {
        some if some > 0 && numbers.below(8) > 0 => {
            let row = held[numbers.below(some) as usize];
            (row[0], row[1])
        }
        _ => (near(numbers, n), near(numbers, 20)),
    }
}
