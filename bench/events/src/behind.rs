//! The plain floor behind the same calls as the proved events: C functions that are lent six parts and the words for the answer. The first
//! part is the floor, the others are empty.

use crate::event::{self, cart, group, said, station, Event};
use crate::proved::{Said, WORDS};
use plain::floor::LONG;
use plain::Floor;
use std::hint::black_box;

type Part = *mut u64;

/// A function that does one kind of event on the floor, and its type.
macro_rules! behind {
    ($name:ident, $of_type:ident, |$floor:ident, $($arg:ident: $of:ty),*| $answer:expr) => {
        type $of_type = extern "C" fn(
            *mut Floor, usize, Part, usize, Part, usize, Part, usize, Part, usize, Part, usize,
            $($of,)* *mut u64, usize,
        );

        #[allow(clippy::too_many_arguments)]
        extern "C" fn $name(
            floor: *mut Floor, _: usize, _: Part, _: usize, _: Part, _: usize, _: Part, _: usize, _: Part, _: usize,
            _: Part, _: usize,
            $($arg: $of,)* out: *mut u64, words: usize,
        ) {
            // Safety: `Behind::answer` lends a floor and the words, and a text or a buffer of its length.
            let ($floor, out) = unsafe { (&mut *floor, std::slice::from_raw_parts_mut(out, words)) };
            out[..WORDS].copy_from_slice(&$answer);
        }
    };
}

behind!(enter, Enter, |floor, t: u64, c: u64| {
    said(1, floor.enter(station(t), cart(c)).map(|step| (step, 0)))
});
behind!(send, Send, |floor, s: u64, set: u64, text: *const u8, size: usize| {
    let text = unsafe { std::slice::from_raw_parts(text, size) };
    said(2, floor.send(station(s), set, text).map(|step| (step, 0)))
});
behind!(wire, Wire, |floor, i: u64, j: u64| {
    said(3, floor.wire(station(i), station(j)).map(|step| (step, 0)))
});
behind!(radio, Radio, |floor, t: u64, c: u64, buffer: *mut u8, size: usize| {
    let buffer = unsafe { std::slice::from_raw_parts_mut(buffer, size) };
    said(4, floor.radio(station(t), cart(c), buffer))
});
behind!(move_cart, Move, |floor, c: u64, to: u64| {
    said(5, floor.move_cart(cart(c), station(to)).map(|step| (step, 0)))
});
behind!(flag_cart, Flag, |floor, c: u64, steady: u64| {
    said(6, floor.set_steady(cart(c), steady != 0).map(|step| (step, 0)))
});
behind!(set_group, SetGroup, |floor, g: u64, set: u64| {
    said(7, floor.set_group(group(g), set).map(|step| (step, 0)))
});
behind!(send_group, SendGroup, |floor, s: u64, g: u64, text: *const u8, size: usize| {
    let text = unsafe { std::slice::from_raw_parts(text, size) };
    said(8, floor.send_to_group(station(s), group(g), text).map(|step| (step, 0)))
});
behind!(send_long, SendLong, |floor, s: u64, set: u64, text: *const u8, size: usize| {
    let text = unsafe { std::slice::from_raw_parts(text, size) };
    said(9, floor.send_long(station(s), set, text).map(|step| (step, 0)))
});
behind!(retire, Retire, |floor, c: u64| { said(10, floor.retire(cart(c)).map(|step| (step, 0))) });

/// A plain floor and its functions; they are not known where they are called.
#[derive(Clone)]
pub struct Behind {
    pub floor: Box<Floor>,
    enter: Enter,
    send: Send,
    wire: Wire,
    radio: Radio,
    move_cart: Move,
    flag_cart: Flag,
    set_group: SetGroup,
    send_group: SendGroup,
    send_long: SendLong,
    retire: Retire,
}

macro_rules! call {
    ($f:expr, $floor:expr, $out:expr, $($arg:expr),*) => {{
        let none = std::ptr::null_mut();
        $f(
            &mut **$floor, 1, none, 0, none, 0, none, 0, none, 0, none, 0,
            $($arg,)* $out.as_mut_ptr(), $out.len(),
        )
    }};
}

impl Behind {
    pub fn new(floor: Floor) -> Self {
        Behind {
            floor: Box::new(floor),
            enter: black_box(enter),
            send: black_box(send),
            wire: black_box(wire),
            radio: black_box(radio),
            move_cart: black_box(move_cart),
            flag_cart: black_box(flag_cart),
            set_group: black_box(set_group),
            send_group: black_box(send_group),
            send_long: black_box(send_long),
            retire: black_box(retire),
        }
    }

    #[inline(always)]
    pub fn answer(&mut self, event: &Event, buffer: &mut [u8; LONG]) -> Said {
        let mut out = [0; WORDS];
        let floor = &mut self.floor;
        match *event {
            Event::Start(..) | Event::Quiet => out = event::apply(floor, event, buffer),
            Event::Enter(t, c) => call!((self.enter), floor, out, t, c),
            Event::Send(s, set, ref text) => {
                call!((self.send), floor, out, s, set, text.as_ptr(), text.len())
            }
            Event::Wire(i, j) => call!((self.wire), floor, out, i, j),
            Event::Radio(t, c) => {
                call!((self.radio), floor, out, t, c, buffer.as_mut_ptr(), buffer.len())
            }
            Event::Move(c, to) => call!((self.move_cart), floor, out, c, to),
            Event::Flag(c, steady) => call!((self.flag_cart), floor, out, c, steady as u64),
            Event::Group(g, set) => call!((self.set_group), floor, out, g, set),
            Event::SendGroup(s, g, ref text) => {
                call!((self.send_group), floor, out, s, g, text.as_ptr(), text.len())
            }
            Event::SendLong(s, set, ref text) => {
                call!((self.send_long), floor, out, s, set, text.as_ptr(), text.len())
            }
            Event::Retire(c) => call!((self.retire), floor, out, c),
        }
        out
    }
}
