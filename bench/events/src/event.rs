//! Events with any numbers, with them the call that runs the floor until it is quiet, and what the plain floor answers to them.

use crate::proved::{Said, WORDS};
use plain::floor::{LONG, TEXT};
use plain::words::{Words, MESSAGE_ROW};
use plain::{CartNo, Floor, GroupNo, MessageNo, Refusal, StationNo, Step};
use shared::places::LENGTHS;
use shared::rule;

#[derive(Clone, Debug)]
pub enum Event {
    Start(u64, u64),
    Enter(u64, u64),
    Send(u64, u64, Vec<u8>),
    Wire(u64, u64),
    Radio(u64, u64),
    Move(u64, u64),
    Flag(u64, bool),
    Group(u64, u64),
    SendGroup(u64, u64, Vec<u8>),
    SendLong(u64, u64, Vec<u8>),
    Retire(u64),
    Quiet,
}

/// The kinds in the order of their numbers. No frame has the last.
pub const KINDS: [&str; 12] = [
    "start",
    "enter",
    "send",
    "wire",
    "radio",
    "move",
    "flag",
    "group",
    "send to group",
    "long send",
    "retire",
    "quiet",
];

impl Event {
    pub fn kind(&self) -> usize {
        match self {
            Event::Start(..) => 0,
            Event::Enter(..) => 1,
            Event::Send(..) => 2,
            Event::Wire(..) => 3,
            Event::Radio(..) => 4,
            Event::Move(..) => 5,
            Event::Flag(..) => 6,
            Event::Group(..) => 7,
            Event::SendGroup(..) => 8,
            Event::SendLong(..) => 9,
            Event::Retire(..) => 10,
            Event::Quiet => 11,
        }
    }

    /// Is its text of a length that its kind may have?
    pub fn text_fits(&self) -> bool {
        match self {
            Event::Send(_, _, text) | Event::SendGroup(_, _, text) => text.len() <= TEXT,
            Event::SendLong(_, _, text) => (TEXT + 1..=LONG).contains(&text.len()),
            _ => true,
        }
    }

    /// How many words its answer has.
    pub fn words(&self) -> usize {
        match self {
            Event::Quiet => 2,
            _ => WORDS,
        }
    }
}

/// No floor has the last number that eight bits can say.
#[inline(always)]
pub fn station(n: u64) -> StationNo {
    StationNo(n.min(255) as u8)
}

#[inline(always)]
pub fn cart(n: u64) -> CartNo {
    CartNo(n.min(255) as u8)
}

#[inline(always)]
pub fn group(n: u64) -> GroupNo {
    GroupNo(n.min(255) as u8)
}

#[inline(always)]
fn refused(number: u64) -> Said {
    let mut said = [0; WORDS];
    said[0] = number;
    said
}

#[inline(always)]
pub fn said(kind: u64, answer: Result<(Step, usize), Refusal>) -> Said {
    match answer {
        Err(refusal) => refused(refusal.number() as u64),
        Ok((s, size)) => {
            [0, kind, s.a as u64, s.b as u64, s.p as u64, s.w as u64, s.q as u64, size as u64]
        }
    }
}

/// The refusal, or 0 and the number of steps.
fn quiet_said(answer: Result<u32, Refusal>) -> Said {
    match answer {
        Err(refusal) => refused(refusal.number() as u64),
        Ok(steps) => [0, steps as u64, 0, 0, 0, 0, 0, 0],
    }
}

/// The event on the plain floor.
#[inline(always)]
pub fn apply(floor: &mut Floor, event: &Event, buffer: &mut [u8]) -> Said {
    let (kind, answer) = match *event {
        Event::Start(n, k) => (0, floor.start(n.min(255) as u8, k.min(255) as u8)),
        Event::Enter(t, c) => (1, floor.enter(station(t), cart(c))),
        Event::Send(s, set, ref text) => (2, floor.send(station(s), set, text)),
        Event::Wire(i, j) => (3, floor.wire(station(i), station(j))),
        Event::Radio(t, c) => return said(4, floor.radio(station(t), cart(c), buffer)),
        Event::Move(c, to) => (5, floor.move_cart(cart(c), station(to))),
        Event::Flag(c, steady) => (6, floor.set_steady(cart(c), steady)),
        Event::Group(g, set) => (7, floor.set_group(group(g), set)),
        Event::SendGroup(s, g, ref text) => (8, floor.send_to_group(station(s), group(g), text)),
        Event::SendLong(s, set, ref text) => (9, floor.send_long(station(s), set, text)),
        Event::Retire(c) => (10, floor.retire(cart(c))),
        Event::Quiet => return quiet_said(floor.quiet(buffer)),
    };
    said(kind, answer.map(|step| (step, 0)))
}

/// Does the event, as 01's table has it, on the floor that the words say; `known` is that floor where they pass the form rule. The answer, and
/// the floor afterwards if the event was accepted.
pub fn plain(
    w: &Words,
    known: Option<Floor>,
    event: &Event,
    buffer: &mut [u8],
) -> (Said, Option<Floor>) {
    let mut floor = match event {
        Event::Start(..) if lengths(w) != LENGTHS => return (refused(5), None),
        Event::Start(..) if w.stations[0] == 1 => return (refused(6), None),
        Event::Start(..) => Floor::new(),
        _ if !event.text_fits() => return (refused(4), None),
        _ => match known {
            Some(floor) => floor,
            None => return (refused(5), None),
        },
    };
    let answer = apply(&mut floor, event, buffer);
    (answer, (answer[0] == 0).then_some(floor))
}

fn lengths(w: &Words) -> [usize; 6] {
    let words = [&w.stations, &w.carts, &w.messages, &w.lines].map(|part| part.len());
    let [stations, carts, messages, lines] = words;
    [stations, carts, messages, lines, w.texts.len(), w.store.len()]
}

/// The floor that words say, where they pass the form rule.
pub fn known(w: &Words) -> Result<Floor, rule::Fault> {
    rule::check(&w.stations, &w.carts, &w.messages, &w.lines, &w.texts, &w.store)?;
    Ok(Floor::from_words(w))
}

/// The row of a held message in the lent words, and its room.
pub fn row(w: &Words, initiator: u64, number: u64) -> Option<(usize, &[u64])> {
    let named = |row: &[u64]| row[4] != 0 && row[0] == initiator && row[1] == number;
    w.messages.chunks_exact(MESSAGE_ROW).enumerate().find(|(_, row)| named(row))
}

/// The reading call: its number, and the text that it lends.
pub fn read(w: &Words, initiator: u64, number: u64) -> (u64, Vec<u8>) {
    let Ok(floor) = known(w) else { return (5, vec![]) };
    // No message has a number that 32 bits cannot say.
    let message = MessageNo(number.min(u32::MAX as u64) as u32);
    let refusal = floor.read_refusal(station(initiator), message);
    (refusal as u64, floor.read(station(initiator), message).to_vec())
}
