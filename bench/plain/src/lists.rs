//! "A list kept by hand": for every station and cart, "a plain list of messages not yet received".
//! "No wires, no queues."

use std::collections::VecDeque;

use crate::floor::{carts_of, CartNo, Limits, StationNo, CARTS, HELD, LONG, STATIONS};
use crate::steps::Refusal;

/// "It holds at most 2,048 = 32 × 64 entries."
pub const ENTRIES: usize = HELD * CARTS;

/// A message that a cart has not received yet.
#[derive(Clone, Debug, PartialEq, Eq)]
pub struct Entry {
    /// The lists' own count of the station's sends before it.
    pub number: u32,
    pub text: Vec<u8>,
}

/// The lists of all stations and carts.
#[derive(Clone)]
pub struct Lists {
    started: bool,
    stations: u8,
    carts: u8,
    /// How many sends each station has made.
    sends: [u32; STATIONS],
    /// The entries of all lists together.
    entries: usize,
    lists: Vec<VecDeque<Entry>>,
}

impl Default for Lists {
    fn default() -> Self {
        Self::new()
    }
}

impl Lists {
    /// Lists that are not started.
    pub fn new() -> Self {
        let lists = vec![VecDeque::new(); STATIONS * CARTS];
        Lists { started: false, stations: 0, carts: 0, sends: [0; STATIONS], entries: 0, lists }
    }

    /// "A start sets them up empty, checked as the floor's."
    pub fn start(&mut self, stations: u8, carts: u8) -> Result<(), Refusal> {
        if self.started {
            return Err(Refusal::AlreadyStarted);
        }
        let most = Limits::FLOOR;
        if !(1..=most.stations).contains(&stations) || !(1..=most.carts).contains(&carts) {
            return Err(Refusal::FloorSize);
        }
        *self = Lists { started: true, stations, carts, ..Lists::new() };
        Ok(())
    }

    /// "A send appends its text, under the lists' own count of that station's sends, to the lists
    /// of the named carts."
    pub fn send(&mut self, station: StationNo, set: u64, text: &[u8]) -> Result<(), Refusal> {
        if text.len() > LONG {
            return Err(Refusal::LongText);
        }
        self.check_started()?;
        self.check_station(station)?;
        carts_of(set).try_for_each(|cart| self.check_cart(cart))?;
        let number = self.sends[station.at()];
        if number > Limits::FLOOR.last_number {
            return Err(Refusal::NumbersUsedUp);
        }
        if self.entries + set.count_ones() as usize > ENTRIES {
            return Err(Refusal::ListsFull);
        }
        self.sends[station.at()] += 1;
        self.entries += set.count_ones() as usize;
        for cart in carts_of(set) {
            self.lists[list(station, cart)].push_back(Entry { number, text: text.into() });
        }
        Ok(())
    }

    /// "An accepted radio step takes the head and answers its number and text."
    pub fn take(&mut self, initiator: StationNo, cart: CartNo) -> Result<Entry, Refusal> {
        self.check_started()?;
        self.check_station(initiator)?;
        self.check_cart(cart)?;
        let head = self.lists[list(initiator, cart)].pop_front().ok_or(Refusal::ListEmpty)?;
        self.entries -= 1;
        Ok(head)
    }

    /// How many entries all lists have together.
    pub fn entries(&self) -> usize {
        self.entries
    }

    fn check_started(&self) -> Result<(), Refusal> {
        if self.started {
            Ok(())
        } else {
            Err(Refusal::NotStarted)
        }
    }

    fn check_station(&self, station: StationNo) -> Result<(), Refusal> {
        if station.0 < self.stations {
            Ok(())
        } else {
            Err(Refusal::NoSuchStation)
        }
    }

    fn check_cart(&self, cart: CartNo) -> Result<(), Refusal> {
        if cart.0 < self.carts {
            Ok(())
        } else {
            Err(Refusal::NoSuchCart)
        }
    }
}

/// The index of the list of a station and a cart.
fn list(station: StationNo, cart: CartNo) -> usize {
    station.at() * CARTS + cart.at()
}

#[cfg(test)]
mod tests {
    use super::*;

    fn lists(stations: u8, carts: u8) -> Lists {
        let mut lists = Lists::new();
        lists.start(stations, carts).unwrap();
        lists
    }

    fn refusal<T: std::fmt::Debug>(answer: Result<T, Refusal>) -> u8 {
        answer.unwrap_err().number()
    }

    fn s(station: u8) -> StationNo {
        StationNo(station)
    }

    fn c(cart: u8) -> CartNo {
        CartNo(cart)
    }

    #[test]
    fn a_start_is_checked_as_the_floors() {
        let mut l = Lists::new();
        for (stations, carts) in [(0, 1), (17, 1), (1, 0), (1, 65)] {
            assert_eq!(refusal(l.start(stations, carts)), 7);
            assert_eq!(refusal(l.take(s(0), c(0))), 5);
        }
        assert_eq!(l.start(16, 64), Ok(()));
        assert_eq!(refusal(l.start(0, 0)), 6);
    }

    #[test]
    fn the_checks_in_their_order() {
        let mut l = Lists::new();
        assert_eq!(refusal(l.send(s(9), 4, &[0; LONG + 1])), 4);
        assert_eq!(refusal(l.send(s(9), 4, &[])), 5);
        assert_eq!(refusal(l.take(s(9), c(9))), 5);
        l.start(2, 2).unwrap();
        assert_eq!(refusal(l.send(s(2), 4, &[])), 8);
        assert_eq!(refusal(l.send(s(1), 4, &[])), 9);
        assert_eq!(refusal(l.take(s(2), c(2))), 8);
        assert_eq!(refusal(l.take(s(1), c(2))), 9);
        assert_eq!(refusal(l.take(s(1), c(1))), 31);
        l.sends[1] = Limits::FLOOR.last_number;
        l.send(s(1), 0b11, &[7]).unwrap();
        assert_eq!(refusal(l.send(s(1), 0b11, &[7])), 13);
        let head = Entry { number: Limits::FLOOR.last_number, text: vec![7] };
        assert_eq!(l.take(s(1), c(1)), Ok(head));
    }

    #[test]
    fn lists_are_first_in_first_out_and_numbered_by_sends() {
        let mut l = lists(2, 2);
        // Nobody is asked for: no 11, no 24. The number is used all the same.
        l.send(s(0), 0, &[]).unwrap();
        for (set, text) in [(0b01, 1), (0b10, 2), (0b11, 3)] {
            l.send(s(0), set, &[text]).unwrap();
        }
        l.send(s(1), 0b01, &[4]).unwrap();
        let mut took = |initiator, cart| l.take(s(initiator), c(cart)).unwrap();
        assert_eq!(took(0, 0), Entry { number: 1, text: vec![1] });
        assert_eq!(took(0, 0), Entry { number: 3, text: vec![3] });
        assert_eq!(took(0, 1), Entry { number: 2, text: vec![2] });
        assert_eq!(took(1, 0), Entry { number: 0, text: vec![4] });
        assert_eq!(refusal(l.take(s(0), c(0))), 31);
        assert_eq!(l.entries(), 1);
    }

    #[test]
    fn all_lists_together_have_2048_entries() {
        let mut l = lists(16, 64);
        for send in 0..32 {
            l.send(s(send % 16), u64::MAX, &[send]).unwrap();
        }
        assert_eq!(l.entries(), 2_048);
        assert_eq!(refusal(l.send(s(0), 1, &[1])), 30);
        l.take(s(0), c(63)).unwrap();
        assert_eq!(refusal(l.send(s(0), 0b11, &[1])), 30);
        assert_eq!(l.send(s(0), 1, &[1]), Ok(()));
    }
}
