//! The C names of the proved controller (include/mekhturia.h), and the only module with `unsafe`. A slice crosses as its address and its length. Every
//! call is lent slices that are there and do not overlap, with their own lengths, and words enough for its answer; no call asks for more.

/// The words of an answer.
pub type Words = [u64; 8];

/// The product, and the six lent parts of a floor.
#[derive(Clone)]
pub struct Parts {
    product: u64,
    stations: Box<[u64]>,
    carts: Box<[u64]>,
    messages: Box<[u64]>,
    lines: Box<[u64]>,
    texts: Box<[u8]>,
    store: Box<[u8]>,
}

impl Parts {
    /// All 0, with these lengths: not started.
    pub fn new(
        product: u64,
        [stations, carts, messages, lines, texts, store]: [usize; 6],
    ) -> Parts {
        Parts {
            product,
            stations: vec![0; stations].into(),
            carts: vec![0; carts].into(),
            messages: vec![0; messages].into(),
            lines: vec![0; lines].into(),
            texts: vec![0; texts].into(),
            store: vec![0; store].into(),
        }
    }

    /// A part of `store` or of `texts`.
    pub fn text(&self, stored: bool, at: usize, octets: usize) -> &[u8] {
        let part = if stored { &self.store } else { &self.texts };
        &part[at..at + octets]
    }
}

/// Declares calls: the product and the six lent parts, then what each has of its own, then the words for its answer. Each hands back a status.
macro_rules! calls {
    ($($name:ident($($arg:ident: $of:ty),*);)*) => {
        extern "C" {
            $(fn $name(
                product: u64,
                stations: *mut u64, station_words: usize,
                carts: *mut u64, cart_words: usize,
                messages: *mut u64, message_words: usize,
                lines: *mut u64, line_words: usize,
                texts: *mut u8, text_octets: usize,
                store: *mut u8, store_octets: usize,
                $($arg: $of,)*
                answer: *mut u64, answer_words: usize,
            ) -> u64;)*
        }
    };
}

calls! {
    mekhturia_start(stations_wanted: u64, carts_wanted: u64);
    mekhturia_enter(station: u64, cart: u64);
    mekhturia_send(station: u64, set: u64, text: *const u8, text_size: usize);
    mekhturia_wire(from: u64, to: u64);
    mekhturia_radio(station: u64, cart: u64, buffer: *mut u8, buffer_size: usize);
    mekhturia_move(cart: u64, to: u64);
    mekhturia_flag(cart: u64, steady: u64);
    mekhturia_group(group: u64, set: u64);
    mekhturia_send_group(station: u64, group: u64, text: *const u8, text_size: usize);
    mekhturia_send_long(station: u64, set: u64, text: *const u8, text_size: usize);
    mekhturia_retire(cart: u64);
    mekhturia_quiet(buffer: *mut u8, buffer_size: usize);
    mekhturia_frames(input: *const u8, input_size: usize, output: *mut u8, output_size: usize, index: u64, last: u64);
}

extern "C" {
    /// The reading call, which writes none of the parts.
    fn mekhturia_text(
        product: u64,
        stations: *const u64,
        station_words: usize,
        carts: *const u64,
        cart_words: usize,
        messages: *const u64,
        message_words: usize,
        lines: *const u64,
        line_words: usize,
        texts: *const u8,
        text_octets: usize,
        store: *const u8,
        store_octets: usize,
        initiator: u64,
        number: u64,
        answer: *mut u64,
        answer_words: usize,
    ) -> u64;
}

/// Makes a call: lends it the six parts, what it has of its own, and the words for its answer. Its status, and the words.
macro_rules! call {
    ($name:ident, $parts:expr $(, $arg:expr)*) => {{
        let (parts, mut words): (&mut Parts, Words) = ($parts, [0; 8]);
        // Safety: each address is that of a slice, with its length behind it. They are all apart, and live until the call is over.
        let status = unsafe {
            $name(
                parts.product,
                parts.stations.as_mut_ptr(), parts.stations.len(),
                parts.carts.as_mut_ptr(), parts.carts.len(),
                parts.messages.as_mut_ptr(), parts.messages.len(),
                parts.lines.as_mut_ptr(), parts.lines.len(),
                parts.texts.as_mut_ptr(), parts.texts.len(),
                parts.store.as_mut_ptr(), parts.store.len(),
                $($arg,)*
                words.as_mut_ptr(), words.len(),
            )
        };
        (status, words)
    }};
}

/// The words of a call: there are eight, and the product is one, so it is answered.
fn answered((status, words): (u64, Words)) -> Words {
    assert_eq!(status, 0, "a call with eight words was not answered");
    words
}

pub fn start(parts: &mut Parts, stations: u64, carts: u64) -> Words {
    answered(call!(mekhturia_start, parts, stations, carts))
}

pub fn enter(parts: &mut Parts, station: u64, cart: u64) -> Words {
    answered(call!(mekhturia_enter, parts, station, cart))
}

pub fn send(parts: &mut Parts, station: u64, set: u64, text: &[u8]) -> Words {
    answered(call!(mekhturia_send, parts, station, set, text.as_ptr(), text.len()))
}

pub fn wire(parts: &mut Parts, from: u64, to: u64) -> Words {
    answered(call!(mekhturia_wire, parts, from, to))
}

pub fn radio(parts: &mut Parts, station: u64, cart: u64, buffer: &mut [u8]) -> Words {
    answered(call!(mekhturia_radio, parts, station, cart, buffer.as_mut_ptr(), buffer.len()))
}

pub fn move_cart(parts: &mut Parts, cart: u64, to: u64) -> Words {
    answered(call!(mekhturia_move, parts, cart, to))
}

pub fn flag(parts: &mut Parts, cart: u64, steady: bool) -> Words {
    answered(call!(mekhturia_flag, parts, cart, steady as u64))
}

pub fn group(parts: &mut Parts, group: u64, set: u64) -> Words {
    answered(call!(mekhturia_group, parts, group, set))
}

pub fn send_group(parts: &mut Parts, station: u64, group: u64, text: &[u8]) -> Words {
    answered(call!(mekhturia_send_group, parts, station, group, text.as_ptr(), text.len()))
}

pub fn send_long(parts: &mut Parts, station: u64, set: u64, text: &[u8]) -> Words {
    answered(call!(mekhturia_send_long, parts, station, set, text.as_ptr(), text.len()))
}

pub fn retire(parts: &mut Parts, cart: u64) -> Words {
    answered(call!(mekhturia_retire, parts, cart))
}

pub fn quiet(parts: &mut Parts, buffer: &mut [u8]) -> Words {
    answered(call!(mekhturia_quiet, parts, buffer.as_mut_ptr(), buffer.len()))
}

/// Where a held message's text lies.
pub fn text(parts: &Parts, initiator: u64, number: u64) -> Words {
    let mut words: Words = [0; 8];
    // Safety: as of every call; the parts are lent for reading.
    let status = unsafe {
        mekhturia_text(
            parts.product,
            parts.stations.as_ptr(),
            parts.stations.len(),
            parts.carts.as_ptr(),
            parts.carts.len(),
            parts.messages.as_ptr(),
            parts.messages.len(),
            parts.lines.as_ptr(),
            parts.lines.len(),
            parts.texts.as_ptr(),
            parts.texts.len(),
            parts.store.as_ptr(),
            parts.store.len(),
            initiator,
            number,
            words.as_mut_ptr(),
            words.len(),
        )
    };
    answered((status, words))
}

/// Frames from one slice, their lines into another; nothing where the index is too far.
pub fn frames(
    parts: &mut Parts,
    input: &[u8],
    output: &mut [u8],
    index: u64,
    last: bool,
) -> Option<Words> {
    let (from, into) = ((input.as_ptr(), input.len()), (output.as_mut_ptr(), output.len()));
    let (status, words) =
        call!(mekhturia_frames, parts, from.0, from.1, into.0, into.1, index, last as u64);
    (status == 0).then_some(words)
}
