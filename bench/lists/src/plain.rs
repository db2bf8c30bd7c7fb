//! The same lists in plain Rust: a row for each send, as the proved ones have it; and the lists as 02 says them, one for each station and cart,
//! which is what both are compared with.

use crate::{Answer, TEXT};
use std::collections::VecDeque;

const ROWS: usize = 2048;
const MOST_ENTRIES: u64 = 2048;
const LAST: u64 = 4_294_967_294;

#[derive(Clone)]
struct Row {
    initiator: u64,
    number: u64,
    carts: u64,
    size: usize,
    text: [u8; TEXT],
}

pub struct Lists {
    stations: u64,
    carts: u64,
    entries: u64,
    sent: [u64; 16],
    rows: Vec<Row>,
}

fn wrong_size(n: u64, k: u64) -> bool {
    !(1..=16).contains(&n) || !(1..=64).contains(&k)
}

/// Does the set name a cart that is not there?
fn strangers(set: u64, carts: u64) -> bool {
    carts < 64 && set >> carts != 0
}

impl Lists {
    pub fn new() -> Lists {
        Lists { stations: 0, carts: 0, entries: 0, sent: [0; 16], rows: Vec::with_capacity(ROWS) }
    }

    pub fn start(&mut self, n: u64, k: u64) -> Answer {
        if self.stations != 0 {
            return Answer::Refused(6);
        }
        if wrong_size(n, k) {
            return Answer::Refused(7);
        }
        self.stations = n;
        self.carts = k;
        Answer::Accepted { number: 0, size: 0 }
    }

    /// A call of its own, as the proved one is.
    #[inline(never)]
    pub fn send(&mut self, station: u64, set: u64, text: &[u8]) -> Answer {
        if text.len() > TEXT {
            return Answer::Refused(4);
        }
        if self.stations == 0 {
            return Answer::Refused(5);
        }
        if station >= self.stations {
            return Answer::Refused(8);
        }
        if strangers(set, self.carts) {
            return Answer::Refused(9);
        }
        let number = self.sent[station as usize];
        if number > LAST {
            return Answer::Refused(13);
        }
        let members = u64::from(set.count_ones());
        if self.entries + members > MOST_ENTRIES {
            return Answer::Refused(30);
        }
        self.sent[station as usize] = number + 1;
        if set != 0 {
            if self.rows.len() == ROWS {
                self.rows.retain(|row| row.carts != 0);
            }
            let mut row =
                Row { initiator: station, number, carts: set, size: text.len(), text: [0; TEXT] };
            row.text[..text.len()].copy_from_slice(text);
            self.rows.push(row);
            self.entries += members;
        }
        Answer::Accepted { number, size: 0 }
    }

    #[inline(never)]
    pub fn take(&mut self, station: u64, cart: u64, buffer: &mut [u8; TEXT]) -> Answer {
        if self.stations == 0 {
            return Answer::Refused(5);
        }
        if station >= self.stations {
            return Answer::Refused(8);
        }
        if cart >= self.carts {
            return Answer::Refused(9);
        }
        let waits = |row: &&mut Row| row.initiator == station && row.carts >> cart & 1 == 1;
        let Some(row) = self.rows.iter_mut().find(waits) else {
            return Answer::Refused(31);
        };
        buffer[..row.size].copy_from_slice(&row.text[..row.size]);
        row.carts &= !(1 << cart);
        self.entries -= 1;
        Answer::Accepted { number: row.number, size: row.size }
    }
}

/// "for every station and cart, a plain list of messages not yet received".
pub struct Queues {
    stations: u64,
    carts: u64,
    sent: [u64; 16],
    lists: Vec<VecDeque<(u64, Vec<u8>)>>,
}

impl Queues {
    pub fn new() -> Queues {
        Queues { stations: 0, carts: 0, sent: [0; 16], lists: vec![VecDeque::new(); 16 * 64] }
    }

    pub fn start(&mut self, n: u64, k: u64) -> Answer {
        if self.stations != 0 {
            return Answer::Refused(6);
        }
        if wrong_size(n, k) {
            return Answer::Refused(7);
        }
        (self.stations, self.carts) = (n, k);
        Answer::Accepted { number: 0, size: 0 }
    }

    pub fn send(&mut self, station: u64, set: u64, text: &[u8]) -> Answer {
        let entries: usize = self.lists.iter().map(VecDeque::len).sum();
        let refusal = if text.len() > TEXT {
            4
        } else if self.stations == 0 {
            5
        } else if station >= self.stations {
            8
        } else if strangers(set, self.carts) {
            9
        } else if self.sent[station as usize] > LAST {
            13
        } else if entries + set.count_ones() as usize > 2048 {
            30
        } else {
            0
        };
        if refusal != 0 {
            return Answer::Refused(refusal);
        }
        let number = self.sent[station as usize];
        self.sent[station as usize] += 1;
        for c in (0..64).filter(|c| set >> c & 1 == 1) {
            self.lists[station as usize * 64 + c].push_back((number, text.to_vec()));
        }
        Answer::Accepted { number, size: 0 }
    }

    pub fn take(&mut self, station: u64, cart: u64, buffer: &mut [u8; TEXT]) -> Answer {
        if self.stations == 0 {
            return Answer::Refused(5);
        }
        if station >= self.stations {
            return Answer::Refused(8);
        }
        if cart >= self.carts {
            return Answer::Refused(9);
        }
        let Some((number, text)) = self.lists[(station * 64 + cart) as usize].pop_front() else {
            return Answer::Refused(31);
        };
        buffer[..text.len()].copy_from_slice(&text);
        Answer::Accepted { number, size: text.len() }
    }
}
