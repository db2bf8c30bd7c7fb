//! The proved events. Those of the library ask nothing of their caller: `crates/mekhturia/src/lib.rt`. The steps, which leave the form test out, do:
//! `crates/exported_events/src/lib.rt`.

use crate::event::Event;
use plain::words::Words;

/// Words for an answer: the refusal or 0, kind, a, b, p, w, q, and how many octets of text. Quiet has two: the refusal or 0, and the steps.
pub const WORDS: usize = 8;
pub type Said = [u64; WORDS];

/// The product that a call of the library is for, here the floor, and its status: it was answered.
pub const FLOOR: u64 = 0;
pub const ANSWERED: u64 = 0;

/// The proved functions by their C names. Each is lent the floor's parts, then has its own arguments, then is lent the words for the answer. A call of
/// the library has the product before all these, and hands back its status; a step has neither.
macro_rules! linked {
    (@one $name:ident ($($product:ident)?) ($($arg:ident: $of:ty),*) ($($status:ty)?)) => {
        pub fn $name(
            $($product: u64,)?
            stations: *mut u64, station_words: usize,
            carts: *mut u64, cart_words: usize,
            messages: *mut u64, message_words: usize,
            lines: *mut u64, line_words: usize,
            texts: *mut u8, text_octets: usize,
            store: *mut u8, store_octets: usize,
            $($arg: $of,)*
            out: *mut u64, out_words: usize,
        ) $(-> $status)?;
    };
    ($($call:ident $(and $step:ident)? => $own:tt;)*) => {
        mod linked {
            extern "C" {
                $(
                    linked! { @one $call (product) $own (u64) }
                    $(linked! { @one $step () $own () })?
                )*
            }
        }
    };
}

linked! {
    mekhturia_start => (n: u64, k: u64);
    mekhturia_enter and mekhturia_step_enter => (station: u64, cart: u64);
    mekhturia_send and mekhturia_step_send => (station: u64, set: u64, text: *const u8, size: usize);
    mekhturia_wire and mekhturia_step_wire => (from: u64, to: u64);
    mekhturia_radio and mekhturia_step_radio => (station: u64, cart: u64, buffer: *mut u8, size: usize);
    mekhturia_move and mekhturia_step_move => (cart: u64, to: u64);
    mekhturia_flag and mekhturia_step_flag => (cart: u64, steady: u64);
    mekhturia_group and mekhturia_step_group => (group: u64, set: u64);
    mekhturia_send_group and mekhturia_step_send_group => (station: u64, group: u64, text: *const u8, size: usize);
    mekhturia_send_long and mekhturia_step_send_long => (station: u64, set: u64, text: *const u8, size: usize);
    mekhturia_retire and mekhturia_step_retire => (cart: u64);
    mekhturia_quiet => (buffer: *mut u8, size: usize);
    mekhturia_text => (initiator: u64, number: u64);
}

/// Lends the floor's parts, then what the event has, then the words for the answer.
macro_rules! lend {
    ($name:ident, ($($product:expr)?), $w:expr, $out:expr, $($arg:expr),*) => {
        linked::$name(
            $($product,)?
            $w.stations.as_mut_ptr(), $w.stations.len(),
            $w.carts.as_mut_ptr(), $w.carts.len(),
            $w.messages.as_mut_ptr(), $w.messages.len(),
            $w.lines.as_mut_ptr(), $w.lines.len(),
            $w.texts.as_mut_ptr(), $w.texts.len(),
            $w.store.as_mut_ptr(), $w.store.len(),
            $($arg,)*
            $out.as_mut_ptr(), $out.len(),
        )
    };
}

/// A call of the library.
macro_rules! call {
    ($name:ident, $product:expr, $w:expr, $out:expr, $($arg:expr),*) => {
        lend!($name, ($product), $w, $out, $($arg),*)
    };
}

/// A step, which has no product, and no status but that it was taken.
macro_rules! step {
    ($name:ident, $product:expr, $w:expr, $out:expr, $($arg:expr),*) => {{
        lend!($name, (), $w, $out, $($arg),*);
        ANSWERED
    }};
}

/// Calls the function of the event's kind, a start and a quiet by the library, and gives its status.
macro_rules! one {
    (
        $how:ident, $product:expr, $w:expr, $event:expr, $buffer:expr, $out:expr,
        $enter:ident, $send:ident, $wire:ident, $radio:ident, $move:ident, $flag:ident, $group:ident, $send_group:ident,
        $send_long:ident, $retire:ident
    ) => {
        match *$event {
            Event::Start(n, k) => call!(mekhturia_start, $product, $w, $out, n, k),
            Event::Enter(t, c) => $how!($enter, $product, $w, $out, t, c),
            Event::Send(s, set, ref text) => {
                $how!($send, $product, $w, $out, s, set, text.as_ptr(), text.len())
            }
            Event::Wire(i, j) => $how!($wire, $product, $w, $out, i, j),
            Event::Radio(t, c) => {
                $how!($radio, $product, $w, $out, t, c, $buffer.as_mut_ptr(), $buffer.len())
            }
            Event::Move(c, to) => $how!($move, $product, $w, $out, c, to),
            Event::Flag(c, steady) => $how!($flag, $product, $w, $out, c, steady as u64),
            Event::Group(g, set) => $how!($group, $product, $w, $out, g, set),
            Event::SendGroup(s, g, ref text) => {
                $how!($send_group, $product, $w, $out, s, g, text.as_ptr(), text.len())
            }
            Event::SendLong(s, set, ref text) => {
                $how!($send_long, $product, $w, $out, s, set, text.as_ptr(), text.len())
            }
            Event::Retire(c) => $how!($retire, $product, $w, $out, c),
            Event::Quiet => {
                call!(mekhturia_quiet, $product, $w, $out, $buffer.as_mut_ptr(), $buffer.len())
            }
        }
    };
}

/// The status of a whole event, form test and all, for any product, on any words, with any words for its answer.
#[inline(always)]
pub fn status(
    product: u64,
    w: &mut Words,
    event: &Event,
    buffer: &mut [u8],
    out: &mut [u64],
) -> u64 {
    unsafe {
        one! {
            call, product, w, event, buffer, out,
            mekhturia_enter, mekhturia_send, mekhturia_wire, mekhturia_radio, mekhturia_move, mekhturia_flag,
            mekhturia_group, mekhturia_send_group, mekhturia_send_long, mekhturia_retire
        }
    }
}

/// A whole event of the floor. `out` has at least `WORDS`.
#[inline(always)]
pub fn call(w: &mut Words, event: &Event, buffer: &mut [u8], out: &mut [u64]) {
    assert_eq!(status(FLOOR, w, event, buffer, out), ANSWERED);
}

/// An event without the form test; start has none, and quiet has its own. `out` has at least `WORDS`.
///
/// # Safety
/// The floor passes the form rule, and a text has a length that its kind may have.
#[inline(always)]
pub unsafe fn step(w: &mut Words, event: &Event, buffer: &mut [u8], out: &mut [u64]) {
    assert!(out.len() >= WORDS);
    let status = one! {
        step, FLOOR, w, event, buffer, out,
        mekhturia_step_enter, mekhturia_step_send, mekhturia_step_wire, mekhturia_step_radio,
        mekhturia_step_move, mekhturia_step_flag, mekhturia_step_group, mekhturia_step_send_group,
        mekhturia_step_send_long, mekhturia_step_retire
    };
    assert_eq!(status, ANSWERED);
}

/// The reading call, on any words: it changes none. Its number, and the part that it lends: 1 for one of the store or 0 for one of the short table,
/// where it begins, and how many octets it has, in the first four words of `out`, which has at least `WORDS`.
pub fn text(w: &mut Words, initiator: u64, number: u64, out: &mut [u64]) {
    assert_eq!(text_status(FLOOR, w, initiator, number, out), ANSWERED);
}

/// The status of the reading call, for any product, with any words for its answer.
pub fn text_status(
    product: u64,
    w: &mut Words,
    initiator: u64,
    number: u64,
    out: &mut [u64],
) -> u64 {
    unsafe { call!(mekhturia_text, product, w, out, initiator, number) }
}
