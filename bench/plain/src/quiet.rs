//! The dispatcher of closing time, when "nobody sends or moves": it runs the floor until it is
//! quiet.

use crate::floor::{carts_of, line, stations_of, CartNo, Floor, Place, StationNo, LONG, STATIONS};
use crate::steps::Refusal;

/// Words that have a bit for each line.
const WORDS: usize = STATIONS * STATIONS / 64;

impl Floor {
    /// "A dispatcher takes the first nonempty line by from, then to; with all lines empty, the
    /// lowest station at which a radio step would be accepted, and the lowest cart there. It
    /// repeats until neither exists, and reports how many steps it took." The buffer is written as
    /// radio steps write it: each puts its text at the front and leaves the rest.
    pub fn quiet(&mut self, buffer: &mut [u8]) -> Result<u32, Refusal> {
        self.check_started()?;
        // "21 if that buffer is shorter than 32, after 5, before the first step", and with long texts
        // "for the dispatcher, 21 below 512".
        if buffer.len() < LONG {
            return Err(Refusal::ShortBuffer);
        }
        let mut open = Open::of(self);
        let mut steps = 0;
        loop {
            if let Some((from, to)) = open.first_line() {
                let step = self.wire(from, to).expect("the line has a record");
                open.wired(self, from, to, step.w);
            } else if let Some((station, cart)) = open.first_cart(self) {
                let (step, _) = self.radio(station, cart, buffer).expect("it would be accepted");
                open.handed(station, StationNo(step.a as u8), step.w);
            } else {
                return Ok(steps);
            }
            steps += 1;
        }
    }

    /// The lowest cart that a radio step at a station would be accepted for. Where all lines are
    /// empty no cart is leaving, so the first that is steady serves.
    #[inline(always)]
    fn first_receiver(&self, station: StationNo) -> Option<CartNo> {
        let steady = self.head(station)? & !self.unsteady;
        carts_of(steady).find(|cart| self.cart[cart.at()].place == Place::At(station))
    }
}

/// What the dispatcher knows of the floor from step to step, so that no step looks for the next one
/// among all lines, stations or carts. The other events need none of it: it is made when the
/// dispatcher begins.
struct Open {
    /// A bit for each line, by from, then to: whether it has a record.
    lines: [u64; WORDS],
    /// A bit for each station: not set once it is known that no radio step is accepted there any
    /// more.
    stations: u16,
}

impl Open {
    fn of(floor: &Floor) -> Self {
        let mut open = Open { lines: [0; WORDS], stations: 0 };
        for station in (0..floor.stations).map(StationNo) {
            open.look_at_lines_from(floor, station);
            open.stations |= 1 << station.at();
        }
        open
    }

    /// The first line that has a record.
    #[inline(always)]
    fn first_line(&self) -> Option<(StationNo, StationNo)> {
        let word = self.lines.iter().position(|word| *word != 0)?;
        let at = 64 * word + self.lines[word].trailing_zeros() as usize;
        Some((StationNo((at / STATIONS) as u8), StationNo((at % STATIONS) as u8)))
    }

    /// The lowest station at which a radio step would be accepted, and the lowest cart there, on a
    /// floor with all lines empty. A station without one is not looked at again: what is still put
    /// on lines are ack lists and deletes, which change no queue and bring no cart.
    #[inline(always)]
    fn first_cart(&mut self, floor: &Floor) -> Option<(StationNo, CartNo)> {
        while let Some(station) = stations_of(self.stations).next() {
            if let Some(cart) = floor.first_receiver(station) {
                return Some((station, cart));
            }
            self.stations &= self.stations - 1;
        }
        None
    }

    /// After a wire step that put `w` records on lines: all of them are on lines from its end.
    #[inline(always)]
    fn wired(&mut self, floor: &Floor, from: StationNo, to: StationNo, w: u8) {
        let taken = line(from, to);
        let emptied = floor.lines[taken].is_empty() as u64;
        self.lines[taken / 64] &= !(emptied << (taken % 64));
        if w > 0 {
            self.look_at_lines_from(floor, to);
        }
    }

    /// After a radio step, which may have put an ack list on the line to the initiator.
    #[inline(always)]
    fn handed(&mut self, station: StationNo, initiator: StationNo, w: u8) {
        let listed = line(station, initiator);
        self.lines[listed / 64] |= (w as u64) << (listed % 64);
    }

    /// Sets the bits of the lines from one station by the lines themselves.
    fn look_at_lines_from(&mut self, floor: &Floor, from: StationNo) {
        let first = line(from, StationNo(0));
        let mut row = 0;
        for (to, line) in floor.lines[first..][..STATIONS].iter().enumerate() {
            row |= (!line.is_empty() as u64) << to;
        }
        let word = &mut self.lines[first / 64];
        *word &= !(0xFFFF << (first % 64));
        *word |= row << (first % 64);
    }
}

#[cfg(test)]
mod tests;
