//! The printed run: one line for each frame, gathered into large pieces.

use std::io::Write;

use crate::floor::{LONG, TEXT};
use crate::steps::{Refusal, Step};

/// No line is longer: 20 digits of index, 10 of a message's number, 11 of p, 64 of text and 20
/// octets of other fields and blanks. A remainder by it changes no place in a line; it lets the
/// compiler see that the place is in range.
const LONGEST: usize = 128;
/// Room for one line. Fields are copied in whole words, which may reach beyond the line's end.
const LINE: usize = LONGEST + 2 * TEXT;
/// Room for a line with a long text.
const LONG_LINE: usize = LINE + 2 * LONG;

/// For 0 to 999: the digits without leading zeros, left first, and a blank.
const SMALL: [[u8; 4]; 1000] = {
    let mut table = [[b' '; 4]; 1000];
    let mut n = 0;
    while n < 1000 {
        let digits = [(n / 100) as u8 + b'0', (n / 10 % 10) as u8 + b'0', (n % 10) as u8 + b'0'];
        let skip = if n < 10 {
            2
        } else if n < 100 {
            1
        } else {
            0
        };
        let mut at = skip;
        while at < 3 {
            table[n][at - skip] = digits[at];
            at += 1;
        }
        n += 1;
    }
    table
};

/// For 0 to 999: how many octets of `SMALL` count, the blank included.
const SMALL_LENGTH: [u8; 1000] = {
    let mut table = [4; 1000];
    let mut n = 0;
    while n < 100 {
        table[n] = if n < 10 { 2 } else { 3 };
        n += 1;
    }
    table
};

/// For 0 to 999: three digits and a blank.
const PADDED: [[u8; 4]; 1000] = {
    let mut table = [[b' '; 4]; 1000];
    let mut n = 0;
    while n < 1000 {
        table[n] =
            [(n / 100) as u8 + b'0', (n / 10 % 10) as u8 + b'0', (n % 10) as u8 + b'0', b' '];
        n += 1;
    }
    table
};

/// The lines of a run that have not been written out yet.
pub struct Report {
    lines: Box<[u8]>,
    end: usize,
    /// The index of the next line: its thousands, printed, and the rest. The thousands change
    /// once in a thousand lines and are copied as they stand.
    thousands: u64,
    printed: [u8; 24],
    printed_length: usize,
    rest: usize,
}

impl Report {
    /// A report that gathers about `room` octets at a time.
    pub fn new(room: usize) -> Self {
        Report {
            lines: vec![0; room + LONG_LINE].into_boxed_slice(),
            end: 0,
            thousands: 0,
            printed: [0; 24],
            printed_length: 0,
            rest: 0,
        }
    }

    /// Whether the gathered lines should be written out before the next one.
    #[inline(always)]
    pub fn is_full(&self) -> bool {
        self.lines.len() - self.end < LONG_LINE
    }

    /// The lines gathered since the last `clear`.
    pub fn lines(&self) -> &[u8] {
        &self.lines[..self.end]
    }

    pub fn clear(&mut self) {
        self.end = 0;
    }

    /// Frames printed so far.
    pub fn printed(&self) -> u64 {
        self.thousands * 1000 + self.rest as u64
    }

    /// The line of an accepted event.
    #[inline(always)]
    pub fn accepted(&mut self, kind: u8, step: &Step) {
        self.line(|line| {
            line.step(kind, step);
            line.end_of_line();
        });
    }

    /// The line of an accepted radio step, which adds the text: `length` octets of the buffer.
    #[inline(always)]
    pub fn received(&mut self, kind: u8, step: &Step, text: &[u8; TEXT], length: usize) {
        self.line(|line| {
            line.step(kind, step);
            line.text(text, length);
            line.end_of_line();
        });
    }

    /// The same with a long text.
    pub fn received_long(&mut self, kind: u8, step: &Step, text: &[u8]) {
        self.line(|line| line.step(kind, step));
        for octet in text {
            let pair = [digit(octet >> 4), digit(octet & 15)];
            self.lines[self.end..][..2].copy_from_slice(&pair);
            self.end += 2;
        }
        self.lines[self.end] = b'\n';
        self.end += 1;
    }

    /// The line of a refused frame or event.
    #[inline(always)]
    pub fn refused(&mut self, refusal: Refusal) {
        self.line(|line| {
            line.put(b"no ");
            line.number(refusal.number() as u64);
            line.end_of_line();
        });
    }

    /// Prints the index and what follows it.
    #[inline(always)]
    fn line(&mut self, print: impl FnOnce(&mut Line)) {
        let octets = self.lines[self.end..].first_chunk_mut().expect("room for a line");
        let mut line = Line { octets, at: 0 };
        if self.printed_length == 0 {
            line.number(self.rest as u64);
        } else {
            line.put(&self.printed);
            line.at = self.printed_length;
            line.put(&PADDED[self.rest]);
        }
        print(&mut line);
        self.end += line.at;
        self.rest += 1;
        if self.rest == 1000 {
            self.next_thousand();
        }
    }

    #[cold]
    fn next_thousand(&mut self) {
        self.rest = 0;
        self.thousands += 1;
        let mut left = &mut self.printed[..];
        write!(left, "{}", self.thousands).expect("room for every number");
        let left = left.len();
        self.printed_length = self.printed.len() - left;
    }
}

/// A hexadecimal digit, lower case.
#[inline(always)]
fn digit(value: u8) -> u8 {
    value + b'0' + (value > 9) as u8 * (b'a' - b'0' - 10)
}

/// A line being printed. Every field puts a blank behind itself.
struct Line<'a> {
    octets: &'a mut [u8; LINE],
    at: usize,
}

impl Line<'_> {
    #[inline(always)]
    fn put(&mut self, octets: &[u8]) {
        let at = self.at % LONGEST;
        self.octets[at..at + octets.len()].copy_from_slice(octets);
        self.at += octets.len();
    }

    #[inline(always)]
    fn step(&mut self, kind: u8, step: &Step) {
        if kind < 10 {
            self.put(&[kind + b'0', b' ']);
        } else {
            self.number(kind as u64);
        }
        self.number(step.a as u64);
        self.number(step.b as u64);
        self.number(step.p);
        self.number(step.w as u64);
        self.number(step.q as u64);
    }

    #[inline(always)]
    fn number(&mut self, n: u64) {
        if n < 1000 {
            let start = self.at;
            self.put(&SMALL[n as usize]);
            self.at = start + SMALL_LENGTH[n as usize] as usize;
        } else {
            self.large(n);
        }
    }

    fn large(&mut self, n: u64) {
        let (high, low) = (n / 1000, n % 1000);
        self.number(high);
        self.at -= 1;
        self.put(&PADDED[low as usize]);
    }

    /// All digits are made, in one sweep without a branch, and those of the text count.
    #[inline(always)]
    fn text(&mut self, text: &[u8; TEXT], length: usize) {
        if length == 0 {
            return self.put(b"- ");
        }
        let start = self.at;
        let mut digits = [0; 2 * TEXT];
        for (pair, octet) in digits.as_chunks_mut::<2>().0.iter_mut().zip(text) {
            *pair = [digit(octet >> 4), digit(octet & 15)];
        }
        self.put(&digits);
        self.at = start + 2 * length;
        self.put(b" ");
    }

    /// The blank behind the last field becomes the line's end.
    #[inline(always)]
    fn end_of_line(&mut self) {
        self.octets[(self.at - 1) % LONGEST] = b'\n';
    }
}

#[cfg(test)]
mod tests {
    use super::*;

    #[test]
    fn numbers_of_every_length() {
        let mut octets = [0; LINE];
        let large = [9_999, 10_000, 65_534, 65_535, 999_999, 1_000_000, 1_048_560];
        let larger = [4_294_967_294, 4_294_967_295, 68_719_476_720];
        for n in (0..1100).chain(large).chain(larger) {
            let mut line = Line { octets: &mut octets, at: 0 };
            line.number(n);
            let at = line.at;
            assert_eq!(octets[..at], *format!("{n} ").as_bytes());
        }
    }

    #[test]
    fn indices_rise_by_one() {
        let mut report = Report::new(1 << 20);
        let mut wanted = String::new();
        for index in 0..12_345 {
            assert_eq!(report.printed(), index);
            report.refused(Refusal::LineEmpty);
            wanted.push_str(&format!("{index} no 15\n"));
        }
        assert_eq!(report.lines(), wanted.as_bytes());
    }

    #[test]
    fn the_longest_line_fits() {
        let mut report = Report::new(0);
        report.thousands = u64::MAX / 1000 - 1;
        report.next_thousand();
        report.rest = 614;
        let p = 16 * u32::MAX as u64;
        let step = Step { a: u16::MAX, b: u32::MAX, p, w: u8::MAX, q: u8::MAX };
        report.received(4, &step, &[0xAB; TEXT], TEXT);
        let text = "ab".repeat(32);
        let wanted =
            format!("18446744073709551614 4 65535 4294967295 68719476720 255 255 {text}\n");
        assert_eq!(report.lines(), wanted.as_bytes());
        assert!(report.is_full());
        report.clear();
        assert!(!report.is_full());
    }

    #[test]
    fn a_kind_of_two_digits() {
        let mut report = Report::new(0);
        report.accepted(10, &Step { a: 63, b: 0, p: 0, w: 0, q: 0 });
        assert_eq!(report.lines(), b"0 10 63 0 0 0 0\n");
    }

    #[test]
    fn an_empty_text_is_a_dash() {
        let mut report = Report::new(0);
        report.received(4, &Step { a: 1, b: 0, p: 0, w: 1, q: 2 }, &[9; TEXT], 0);
        assert_eq!(report.lines(), b"0 4 1 0 0 1 2 -\n");
    }

    #[test]
    fn long_texts() {
        let mut report = Report::new(0);
        report.refused(Refusal::LineEmpty);
        report.clear();
        let text: Vec<u8> = (0..LONG).map(|at| (7 * at) as u8).collect();
        report.received_long(4, &Step { a: 15, b: u32::MAX, p: 0, w: 1, q: 2 }, &text);
        let digits: String = text.iter().map(|o| format!("{o:02x}")).collect();
        assert_eq!(report.lines(), format!("1 4 15 4294967295 0 1 2 {digits}\n").as_bytes());
        assert!(report.is_full());
    }

    #[test]
    fn texts_of_every_octet_and_length() {
        for first in 0..=255 {
            let text: [u8; TEXT] = std::array::from_fn(|at| first ^ (37 * at) as u8);
            for length in 1..=TEXT {
                let mut report = Report::new(0);
                report.received(4, &Step { a: 1, b: 0, p: 0, w: 1, q: 2 }, &text, length);
                let digits: String = text[..length].iter().map(|o| format!("{o:02x}")).collect();
                assert_eq!(report.lines(), format!("0 4 1 0 0 1 2 {digits}\n").as_bytes());
            }
        }
    }
}
