//! Frames taken apart into events.

use crate::floor::{CartNo, GroupNo, StationNo, LONG, TEXT};
use crate::steps::Refusal;

/// Octets of a frame, without the text that follows a send.
pub const FRAME: usize = 16;

pub const START: u8 = 0;
pub const ENTER: u8 = 1;
pub const SEND: u8 = 2;
pub const WIRE: u8 = 3;
pub const RADIO: u8 = 4;
pub const MOVE: u8 = 5;
pub const STEADY: u8 = 6;
pub const GROUP: u8 = 7;
pub const GROUP_SEND: u8 = 8;
pub const LONG_SEND: u8 = 9;
pub const RETIRE: u8 = 10;

/// How many kinds there are.
pub const KINDS: usize = 11;

// Where the fields stand in the first eight octets, read as one number.
const KIND: u32 = 60;
const STATION: u32 = 56;
const CART: u32 = 50;
const OTHER: u32 = 46;
const LENGTH: u32 = 40;

const STATION_FIELD: u64 = 0xF << STATION;
const CART_FIELD: u64 = 0x3F << CART;
const OTHER_FIELD: u64 = 0xF << OTHER;
const LENGTH_FIELD: u64 = 0x3F << LENGTH;
/// "The last sixteen of the forty zero bits hold that length."
const LONG_LENGTH_FIELD: u64 = 0xFFFF;
/// "In the other field, 1 for steady or 0 for not; 2 to 15 there is refusal 3": as if the lowest
/// bit of that field alone were listed.
const FLAG: u64 = 1 << OTHER;

/// For each kind, the bits beside the kind that no listed field covers, but for the set.
const STRAY: [u64; KINDS] = [
    stray(STATION_FIELD | CART_FIELD),
    stray(STATION_FIELD | CART_FIELD),
    stray(STATION_FIELD | LENGTH_FIELD),
    stray(STATION_FIELD | OTHER_FIELD),
    stray(STATION_FIELD | CART_FIELD),
    stray(CART_FIELD | OTHER_FIELD),
    stray(CART_FIELD | FLAG),
    stray(OTHER_FIELD),
    stray(STATION_FIELD | OTHER_FIELD | LENGTH_FIELD),
    stray(STATION_FIELD | LONG_LENGTH_FIELD),
    stray(CART_FIELD),
];

/// A bit for each kind that a set is listed for.
const SETS: u32 = 1 << SEND | 1 << GROUP | 1 << LONG_SEND;

const fn stray(listed: u64) -> u64 {
    !(listed | 0xF << KIND)
}

/// One event of the floor.
#[derive(Clone, Copy, Debug, PartialEq, Eq)]
pub enum Event<'a> {
    Start { stations: u8, carts: u8 },
    Enter { station: StationNo, cart: CartNo },
    Send { station: StationNo, set: u64, text: &'a [u8] },
    Wire { from: StationNo, to: StationNo },
    Radio { station: StationNo, cart: CartNo },
    Move { cart: CartNo, to: StationNo },
    Steady { cart: CartNo, steady: bool },
    Group { group: GroupNo, set: u64 },
    GroupSend { station: StationNo, group: GroupNo, text: &'a [u8] },
    LongSend { station: StationNo, set: u64, text: &'a [u8] },
    Retire { cart: CartNo },
}

/// What a reader answers.
#[derive(Clone, Copy, Debug, PartialEq, Eq)]
pub enum Taken<'a> {
    Event(Event<'a>),
    End,
    Refused(Refusal),
}

/// A reader over lent frames.
#[derive(Clone, Copy, Debug)]
pub struct Reader<'a> {
    length: usize,
    /// What has not been taken.
    rest: &'a [u8],
}

impl<'a> Reader<'a> {
    pub fn new(octets: &'a [u8]) -> Self {
        Reader { length: octets.len(), rest: octets }
    }

    /// How many octets have been taken.
    #[inline(always)]
    pub fn position(&self) -> usize {
        self.length - self.rest.len()
    }

    /// Takes the next frame apart. At the end, and where the frame is refused, the reader stays.
    #[inline(always)]
    pub fn take(&mut self) -> Taken<'a> {
        let Some((frame, after)) = self.rest.split_first_chunk::<FRAME>() else {
            return match self.rest {
                [] => Taken::End,
                _ => Taken::Refused(Refusal::CutFrame),
            };
        };
        let fields = u128::from_be_bytes(*frame);
        let (head, set) = ((fields >> 64) as u64, fields as u64);

        let kind = (head >> KIND) as u8;
        let Some(&stray) = STRAY.get(kind as usize) else {
            return Taken::Refused(Refusal::UnknownKind);
        };
        if head & stray != 0 || (set != 0 && SETS >> kind & 1 == 0) {
            return Taken::Refused(Refusal::StrayField);
        }
        let mut rest = after;
        match event_of(head, set, &mut rest) {
            Ok(event) => {
                self.rest = rest;
                Taken::Event(event)
            }
            Err(refusal) => Taken::Refused(refusal),
        }
    }
}

/// The event of a frame with no stray field; its text, if it has one, is taken from what follows.
#[inline(always)]
fn event_of<'a>(head: u64, set: u64, rest: &mut &'a [u8]) -> Result<Event<'a>, Refusal> {
    let station = StationNo((head >> STATION & 0xF) as u8);
    let cart = CartNo((head >> CART & 0x3F) as u8);
    let other = (head >> OTHER & 0xF) as u8;
    Ok(match (head >> KIND) as u8 {
        START => Event::Start { stations: station.0 + 1, carts: cart.0 + 1 },
        ENTER => Event::Enter { station, cart },
        SEND => Event::Send { station, set, text: text_of(head, rest)? },
        WIRE => Event::Wire { from: station, to: StationNo(other) },
        RADIO => Event::Radio { station, cart },
        MOVE => Event::Move { cart, to: StationNo(other) },
        STEADY => Event::Steady { cart, steady: other != 0 },
        GROUP => Event::Group { group: GroupNo(other), set },
        GROUP_SEND => {
            Event::GroupSend { station, group: GroupNo(other), text: text_of(head, rest)? }
        }
        LONG_SEND => Event::LongSend { station, set, text: long_text_of(head, rest)? },
        _ => Event::Retire { cart },
    })
}

/// The text of a send, taken from what follows its head.
#[inline(always)]
fn text_of<'a>(head: u64, rest: &mut &'a [u8]) -> Result<&'a [u8], Refusal> {
    let length = (head >> LENGTH & 0x3F) as usize;
    if length > TEXT {
        return Err(Refusal::LongText);
    }
    split_text(length, rest)
}

/// The text of a long send; "4 for other lengths".
#[inline(always)]
fn long_text_of<'a>(head: u64, rest: &mut &'a [u8]) -> Result<&'a [u8], Refusal> {
    let length = (head & LONG_LENGTH_FIELD) as usize;
    if !(TEXT + 1..=LONG).contains(&length) {
        return Err(Refusal::LongText);
    }
    split_text(length, rest)
}

#[inline(always)]
fn split_text<'a>(length: usize, rest: &mut &'a [u8]) -> Result<&'a [u8], Refusal> {
    let (text, behind) = rest.split_at_checked(length).ok_or(Refusal::CutFrame)?;
    *rest = behind;
    Ok(text)
}

/// Writes an event as a frame at the end of `out`. Numbers must fit their fields.
pub fn put(event: &Event, out: &mut Vec<u8>) {
    let (head, set, text) = fields_of(event);
    out.extend_from_slice(&head.to_be_bytes());
    out.extend_from_slice(&set.to_be_bytes());
    out.extend_from_slice(text);
}

/// The head of an event's frame, its set and its text.
fn fields_of<'a>(event: &Event<'a>) -> (u64, u64, &'a [u8]) {
    let kind = |kind: u8| (kind as u64) << KIND;
    let at = |station: StationNo| (station.0 as u64) << STATION;
    let of = |cart: CartNo| (cart.0 as u64) << CART;
    let other = |number: u8| (number as u64) << OTHER;
    let length = |text: &[u8]| (text.len() as u64) << LENGTH;
    match *event {
        Event::Start { stations, carts } => {
            (kind(START) | at(StationNo(stations - 1)) | of(CartNo(carts - 1)), 0, &[])
        }
        Event::Enter { station, cart } => (kind(ENTER) | at(station) | of(cart), 0, &[]),
        Event::Send { station, set, text } => (kind(SEND) | at(station) | length(text), set, text),
        Event::Wire { from, to } => (kind(WIRE) | at(from) | other(to.0), 0, &[]),
        Event::Radio { station, cart } => (kind(RADIO) | at(station) | of(cart), 0, &[]),
        Event::Move { cart, to } => (kind(MOVE) | of(cart) | other(to.0), 0, &[]),
        Event::Steady { cart, steady } => (kind(STEADY) | of(cart) | other(steady as u8), 0, &[]),
        Event::Group { group, set } => (kind(GROUP) | other(group.0), set, &[]),
        Event::GroupSend { station, group, text } => {
            (kind(GROUP_SEND) | at(station) | other(group.0) | length(text), 0, text)
        }
        Event::LongSend { station, set, text } => {
            (kind(LONG_SEND) | at(station) | text.len() as u64, set, text)
        }
        Event::Retire { cart } => (kind(RETIRE) | of(cart), 0, &[]),
    }
}

#[cfg(test)]
mod tests {
    use super::*;

    fn refusal(octets: &[u8]) -> u8 {
        let mut reader = Reader::new(octets);
        let Taken::Refused(refusal) = reader.take() else { panic!("accepted") };
        assert_eq!(reader.position(), 0);
        refusal.number()
    }

    fn frame(head: &[u8]) -> [u8; FRAME] {
        let mut frame = [0; FRAME];
        frame[..head.len()].copy_from_slice(head);
        frame
    }

    #[test]
    fn the_octets_that_document_01_prints() {
        let mut out = Vec::new();
        put(&Event::Send { station: StationNo(1), set: 1, text: &[0xA1] }, &mut out);
        let mut send = frame(&[0x21, 0x00, 0x01]).to_vec();
        send[15] = 1;
        send.push(0xA1);
        assert_eq!(out, send);
        out.clear();
        put(&Event::Move { cart: CartNo(0), to: StationNo(1) }, &mut out);
        assert_eq!(out, frame(&[0x50, 0x00, 0x40]));
    }

    #[test]
    fn every_event_comes_back() {
        let text: Vec<u8> = (0..TEXT as u8).collect();
        let events = [
            Event::Start { stations: 16, carts: 64 },
            Event::Start { stations: 1, carts: 1 },
            Event::Enter { station: StationNo(15), cart: CartNo(63) },
            Event::Send { station: StationNo(15), set: u64::MAX, text: &text },
            Event::Send { station: StationNo(0), set: 0, text: &[] },
            Event::Wire { from: StationNo(14), to: StationNo(15) },
            Event::Radio { station: StationNo(9), cart: CartNo(62) },
            Event::Move { cart: CartNo(61), to: StationNo(13) },
            Event::Steady { cart: CartNo(60), steady: false },
            Event::Steady { cart: CartNo(0), steady: true },
            Event::Group { group: GroupNo(15), set: u64::MAX },
            Event::Group { group: GroupNo(0), set: 0 },
            Event::GroupSend { station: StationNo(15), group: GroupNo(14), text: &text },
            Event::GroupSend { station: StationNo(0), group: GroupNo(0), text: &[] },
            Event::LongSend { station: StationNo(15), set: u64::MAX, text: &[0xAB; LONG] },
            Event::LongSend { station: StationNo(0), set: 0, text: &[0xCD; TEXT + 1] },
            Event::Retire { cart: CartNo(63) },
        ];
        let mut octets = Vec::new();
        events.iter().for_each(|event| put(event, &mut octets));
        let mut reader = Reader::new(&octets);
        for event in events {
            assert_eq!(reader.take(), Taken::Event(event));
        }
        assert_eq!(reader.take(), Taken::End);
        assert_eq!(reader.take(), Taken::End);
        assert_eq!(reader.position(), octets.len());
    }

    #[test]
    fn refusals_in_order() {
        assert_eq!(refusal(&[0xFF]), 1);
        assert_eq!(refusal(&[0xFF; 15]), 1);
        for kind in KINDS as u8..16 {
            assert_eq!(refusal(&[kind << 4 | 0xF; 16]), 2);
        }
        // A stray field goes before the length, the length before the cut text.
        let mut long = frame(&[0x20, 0x00, 33]);
        assert_eq!(refusal(&long), 4);
        long[7] = 1;
        assert_eq!(refusal(&long), 3);
        assert_eq!(refusal(&frame(&[0x20, 0x00, 32])), 1);
        assert_eq!(refusal(&frame(&[0x80, 0x00, 33])), 4);
        assert_eq!(refusal(&frame(&[0x80, 0x00, 32])), 1);
    }

    #[test]
    fn each_field_is_listed_or_refused() {
        // kind; station, cart, other, length, zero, set: 1 where listed
        let listed: [(u8, [u8; 6]); KINDS] = [
            (START, [1, 1, 0, 0, 0, 0]),
            (ENTER, [1, 1, 0, 0, 0, 0]),
            (SEND, [1, 0, 0, 1, 0, 1]),
            (WIRE, [1, 0, 1, 0, 0, 0]),
            (RADIO, [1, 1, 0, 0, 0, 0]),
            (MOVE, [0, 1, 1, 0, 0, 0]),
            (STEADY, [0, 1, 1, 0, 0, 0]),
            (GROUP, [0, 0, 1, 0, 0, 1]),
            (GROUP_SEND, [1, 0, 1, 1, 0, 0]),
            (LONG_SEND, [1, 0, 0, 0, 1, 1]),
            (RETIRE, [0, 1, 0, 0, 0, 0]),
        ];
        let widths = [4, 6, 4, 6, 40, 64];
        for (kind, fields) in listed {
            let mut bit = 124;
            for (field, width) in fields.iter().zip(widths) {
                for _ in 0..width {
                    bit -= 1;
                    let octets = ((kind as u128) << 124 | 1 << bit).to_be_bytes();
                    let mut reader = Reader::new(&octets);
                    let taken = reader.take();
                    let stray = taken == Taken::Refused(Refusal::StrayField);
                    // Of a flag's field, the lowest bit alone.
                    let beyond_flag = kind == STEADY && (111..114).contains(&bit);
                    // Of the zero bits, a long send's last sixteen.
                    let above_length = kind == LONG_SEND && (80..104).contains(&bit);
                    let wanted = *field == 0 || beyond_flag || above_length;
                    assert_eq!(stray, wanted, "kind {kind}, bit {bit}");
                }
            }
            assert_eq!(bit, 0);
        }
    }

    #[test]
    fn lengths_of_a_long_send() {
        for length in (0..=LONG as u16 + 2).chain([0x8000, 0xFFFF]) {
            let mut octets = frame(&[0x90, 0, 0, 0, 0, 0]).to_vec();
            octets[6..8].copy_from_slice(&length.to_be_bytes());
            let fits = (33..=512).contains(&length);
            // The length goes before the cut text, a stray length before both.
            assert_eq!(refusal(&octets), if fits { 1 } else { 4 });
            octets[2] = 1;
            assert_eq!(refusal(&octets), 3);
            octets[2] = 0;
            octets.resize(FRAME + length as usize, 7);
            let taken = Reader::new(&octets).take();
            assert_eq!(matches!(taken, Taken::Event(Event::LongSend { .. })), fits);
        }
    }

    #[test]
    fn a_flag_is_0_or_1() {
        for flag in 0..16 {
            // Cart 63 and the flag.
            let octets = frame(&[0x60, 0xFC | flag >> 2, flag << 6]);
            match Reader::new(&octets).take() {
                Taken::Event(Event::Steady { cart: CartNo(63), steady }) => {
                    assert_eq!(flag, steady as u8);
                }
                taken => {
                    assert!(flag > 1, "{taken:?}");
                    assert_eq!(refusal(&octets), 3);
                }
            }
        }
    }
}
