//! The same in plain Rust, as one would write it: structs, arrays and `VecDeque`.

use std::collections::VecDeque;

#[derive(Clone, Copy, PartialEq, Eq, Debug)]
pub struct Record {
    pub word: u64,
    pub carts: u64,
}

pub struct Lines {
    lines: Vec<VecDeque<Record>>,
}

impl Lines {
    pub fn new() -> Self {
        Lines { lines: (0..256).map(|_| VecDeque::with_capacity(16)).collect() }
    }

    #[inline(never)]
    pub fn push(&mut self, i: usize, j: usize, word: u64, carts: u64) {
        self.lines[i * 16 + j].push_back(Record { word, carts });
    }

    #[inline(never)]
    pub fn pop(&mut self, i: usize, j: usize) {
        self.lines[i * 16 + j].pop_front();
    }

    pub fn head(&self, i: usize, j: usize) -> Option<(u64, u64)> {
        self.lines[i * 16 + j].front().map(|r| (r.word, r.carts))
    }
}

#[derive(Clone, Copy, Default)]
pub struct Entry {
    pub copy: u64,
    pub acks: u64,
    pub queue: u64,
}

#[derive(Clone, Copy, Default)]
pub struct Station {
    pub expected: [u64; 16],
    pub local: u64,
    /// The rooms that have a copy here, and those that have an entry in the queue.
    pub copied: u32,
    pub queued: u32,
    pub entries: [Entry; 32],
}

impl Station {
    pub fn put(&mut self, m: usize, entry: Entry) {
        self.copied |= ((entry.copy != 0) as u32) << m;
        self.queued |= ((entry.queue != 0) as u32) << m;
        self.entries[m] = entry;
    }
}

/// The rooms of a set, lowest first.
fn rooms_of(mut set: u32) -> impl Iterator<Item = usize> {
    std::iter::from_fn(move || {
        (set != 0).then(|| {
            let m = set.trailing_zeros() as usize;
            set &= set - 1;
            m
        })
    })
}

#[derive(Clone, Copy, Default)]
pub struct Held {
    pub initiator: usize,
    pub number: u64,
    pub waiting: u64,
}

pub struct Tables {
    pub stations: [Station; 16],
    pub next: [[u64; 16]; 64],
    pub held: [Held; 32],
}

impl Tables {
    pub fn new() -> Self {
        Tables {
            stations: [Station::default(); 16],
            next: [[0; 16]; 64],
            held: [Held::default(); 32],
        }
    }

    /// The room at the head of the queue: least number, then higher initiator.
    #[inline(never)]
    pub fn head(&self, t: usize) -> Option<usize> {
        let mut head: Option<usize> = None;
        for m in rooms_of(self.stations[t].queued) {
            let held = &self.held[m];
            let first = head.is_none_or(|k| {
                let other = &self.held[k];
                (held.number, other.initiator) < (other.number, held.initiator)
            });
            if first {
                head = Some(m);
            }
        }
        head
    }

    /// Is every local cart in the copy in the ack list?
    #[inline(never)]
    pub fn all_acked(&self, m: usize, t: usize) -> bool {
        let station = &self.stations[t];
        let entry = &station.entries[m];
        station.local & entry.copy & !entry.acks == 0
    }

    /// How far the cart's next numbers rise: for each initiator to its nearest message, by one pass over the rooms that have a copy.
    #[inline(never)]
    pub fn catch_up(&self, t: usize, c: usize) -> u64 {
        let station = &self.stations[t];
        let row = &self.next[c];
        let mut stop = [u64::MAX; 16];
        for m in rooms_of(station.copied) {
            let (held, entry) = (&self.held[m], &station.entries[m]);
            let s = held.initiator;
            if held.waiting >> t & 1 == 1
                && held.number < station.expected[s]
                && entry.copy >> c & 1 == 1
                && row[s] <= held.number
            {
                stop[s] = stop[s].min(held.number);
            }
        }
        let mut passed = 0;
        for s in 0..16 {
            let upto = if stop[s] == u64::MAX { row[s].max(station.expected[s]) } else { stop[s] };
            passed += upto - row[s];
        }
        passed
    }
}
