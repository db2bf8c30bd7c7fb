//! A floor in the words that the proved controller keeps it in: six parts, laid out as
//! docs/ARCHITECTURE.md says under "The lent parts". The words are those of the whole floor; the
//! kit's parts, which are shorter, are not made here.

use crate::floor::{
    line, order, CartNo, Floor, Place, Record, Room, StationNo, CARTS, GROUPS, HELD, STATIONS, TEXT,
};

/// Rows of the pool of records.
pub const ROWS: usize = 3_136;

/// Words of a row of the stations' table: row 0 is the floor's own, row 1 + t station t's.
pub const STATION_ROW: usize = 116;

/// Where the groups begin in the floor's own row, with a word each.
pub const GROUP_WORDS: usize = 3;

/// Where the rooms begin in a station's row, with three words each; and which rooms' copies and ack
/// lists count there, and which rooms' queue entries. A room that does not has none, whatever its
/// words say.
pub const ROOM_WORDS: usize = 18;
pub const COPIES: usize = 114;
pub const ENTRIES: usize = 115;

/// The first word of a cart's row is the kind of its place, and so much more if the cart is not
/// steady.
pub const UNSTEADY: u64 = 4;

/// Where the lines, the registers' rows of next numbers, one for each cart, and the rows begin among
/// the words of the pool.
pub const LINES: usize = 50;
pub const REGISTERS: usize = 818;
pub const RECORDS: usize = REGISTERS + STATIONS * CARTS;

/// Words of a row of the messages' table. The last is where a long text begins in the store.
pub const MESSAGE_ROW: usize = 7;

/// The six parts.
#[derive(Clone, PartialEq, Eq, Debug)]
pub struct Words {
    pub stations: Vec<u64>,
    pub carts: Vec<u64>,
    pub messages: Vec<u64>,
    pub lines: Vec<u64>,
    pub texts: Vec<u8>,
    pub store: Vec<u8>,
}

impl Floor {
    /// The words of this floor. The records lie in the rows that `row` names, which are all
    /// different: row(0) has the first head, and the lines take turns.
    pub fn words(&self, row: impl Fn(usize) -> usize) -> Words {
        Words {
            stations: self.station_words(),
            carts: self.cart_words(),
            messages: self.message_words(),
            lines: self.line_words(row),
            texts: self.held.iter().flat_map(|held| held.text).collect(),
            store: self.store.octets().to_vec(),
        }
    }

    fn station_words(&self) -> Vec<u64> {
        let mut words = vec![0; STATION_ROW * (1 + STATIONS)];
        words[..3].copy_from_slice(&[self.started as u64, self.stations as u64, self.carts as u64]);
        words[GROUP_WORDS..][..GROUPS].copy_from_slice(&self.groups);
        for (row, station) in words.chunks_exact_mut(STATION_ROW).skip(1).zip(&self.station) {
            row[0] = station.sent as u64;
            row[17] = station.local;
            for (word, expected) in row[1..].iter_mut().zip(station.expected) {
                *word = expected as u64;
            }
            for (m, at) in station.buffered.iter().enumerate() {
                let entry = &mut row[ROOM_WORDS + 3 * m..][..3];
                entry.copy_from_slice(&[at.copy, at.ack_list, at.queued]);
                // Those that are not empty count.
                row[COPIES] |= (((at.copy | at.ack_list) != 0) as u64) << m;
                row[ENTRIES] |= ((at.queued != 0) as u64) << m;
            }
        }
        words
    }

    fn cart_words(&self) -> Vec<u64> {
        let mut words = vec![0; 19 * CARTS];
        for (row, cart) in words.chunks_exact_mut(19).zip(&self.cart) {
            if let Place::At(station) = cart.place {
                row[0] = 1;
                row[1] = station.0 as u64;
            }
            for (word, next) in row[3..].iter_mut().zip(cart.next) {
                *word = next as u64;
            }
        }
        // A cart on its way is known by its hand-off, which also says where it goes.
        for i in 0..STATIONS {
            for j in 0..STATIONS {
                for record in &self.lines[line(StationNo(i as u8), StationNo(j as u8))] {
                    let (cart, place) = match record {
                        Record::Deregister(cart) => (cart, [2, j as u64, i as u64]),
                        Record::Register(cart) => (cart, [3, i as u64, j as u64]),
                        _ => continue,
                    };
                    words[19 * cart.at()..][..3].copy_from_slice(&place);
                }
            }
        }
        for (c, row) in words.chunks_exact_mut(19).enumerate() {
            row[0] += UNSTEADY * (self.unsteady >> c & 1);
        }
        words
    }

    fn message_words(&self) -> Vec<u64> {
        let mut words = vec![0; MESSAGE_ROW * HELD];
        for (m, (row, held)) in words.chunks_exact_mut(MESSAGE_ROW).zip(&self.held).enumerate() {
            row.copy_from_slice(&[
                held.initiator.0 as u64,
                held.number as u64,
                held.set,
                held.acknowledged,
                self.undeleted_at(m),
                held.length as u64,
                self.store.start(Room(m as u8)) as u64,
            ]);
        }
        words
    }

    /// The stations that have not handled the delete of the message in a room; none where it is
    /// free.
    fn undeleted_at(&self, m: usize) -> u64 {
        if self.rooms & (1 << m) == 0 {
            return 0;
        }
        let held = &self.held[m];
        (0..self.stations as usize)
            .filter(|&t| {
                let station = &self.station[t];
                let come = held.number < station.expected[held.initiator.at()];
                !come || station.buffer & (1 << m) != 0
            })
            .fold(0, |set, t| set | 1 << t)
    }

    fn line_words(&self, row: impl Fn(usize) -> usize) -> Vec<u64> {
        let mut words = vec![0; RECORDS + 3 * ROWS];
        words[..LINES - 1].fill(u64::MAX);
        let longest = self.lines.iter().map(|line| line.len()).max().unwrap_or(0);
        let mut used = 0;
        for turn in 0..longest {
            for (k, line) in self.lines.iter().enumerate() {
                let Some(record) = line.get(turn) else { continue };
                let at = row(used);
                used += 1;
                words[at / 64] &= !(1 << (at % 64));
                let tail = words[LINES + 3 * k + 1] as usize;
                let link = if turn == 0 { LINES + 3 * k } else { RECORDS + 3 * tail };
                words[link] = at as u64;
                words[LINES + 3 * k + 1] = at as u64;
                words[LINES + 3 * k + 2] += 1;
                let (word, carts) = self.record_words(record);
                words[RECORDS + 3 * at + 1] = word;
                words[RECORDS + 3 * at + 2] = carts;
                if let Record::Register(cart) = record {
                    let row = &mut words[REGISTERS + STATIONS * cart.0 as usize..][..STATIONS];
                    for (word, next) in row.iter_mut().zip(self.cart[cart.0 as usize].next) {
                        *word = next as u64;
                    }
                }
            }
        }
        words[LINES - 1] =
            (0..LINES - 1).filter(|&w| words[w] != 0).fold(0, |summary, w| summary | 1 << w);
        words
    }

    fn record_words(&self, record: &Record) -> (u64, u64) {
        let of = |kind: u64, m: usize| kind + 8 * m as u64 + 2048 * self.held[m].number as u64;
        match record {
            Record::Multicast(room) => (of(1, room.at()), 0),
            Record::AckList(room, carts) => (of(2, room.at()), *carts),
            Record::Delete(room) => (of(3, room.at()), 0),
            Record::Deregister(cart) => (4 + 8 * cart.0 as u64, 0),
            Record::Register(cart) => (5 + 8 * cart.0 as u64, 0),
        }
    }
}

/// The floor that words say which pass the form rule; of others it may say anything, or panic.
/// What the rule leaves open where nothing is (in a free room, in a copy or an entry that does not
/// count, beyond the stations, behind a text) is read as empty.
impl Floor {
    pub fn from_words(words: &Words) -> Floor {
        let mut floor = Floor::new();
        floor.started = words.stations[0] == 1;
        floor.stations = words.stations[1] as u8;
        floor.carts = words.stations[2] as u8;
        floor.groups.copy_from_slice(&words.stations[GROUP_WORDS..][..GROUPS]);
        floor.read_carts(&words.carts);
        floor.read_messages(words);
        floor.read_stations(words);
        floor.read_lines(&words.lines);
        floor
    }

    fn read_carts(&mut self, words: &[u64]) {
        for (c, (row, cart)) in words.chunks_exact(19).zip(&mut self.cart).enumerate() {
            let station = StationNo(row[1] as u8);
            cart.place = match row[0] % UNSTEADY {
                0 => Place::Outside,
                1 => Place::At(station),
                2 => Place::Leaving(station),
                _ => Place::Travelling,
            };
            cart.next = std::array::from_fn(|s| row[3 + s] as u32);
            if cart.place != Place::Outside {
                self.entered |= 1 << c;
            }
            self.unsteady |= (row[0] / UNSTEADY) << c;
        }
    }

    fn read_messages(&mut self, words: &Words) {
        let rows = words.messages.chunks_exact(MESSAGE_ROW);
        for (m, (row, held)) in rows.zip(&mut self.held).enumerate() {
            if row[4] == 0 {
                continue;
            }
            let initiator = StationNo(row[0] as u8);
            held.initiator = initiator;
            held.number = row[1] as u32;
            held.order = order(held.number, initiator);
            held.set = row[2];
            held.acknowledged = row[3];
            held.undeleted = row[4].count_ones() as u8;
            held.length = row[5] as u16;
            let (length, offset) = (row[5] as usize, row[6] as usize);
            if length <= TEXT {
                held.text[..length].copy_from_slice(&words.texts[TEXT * m..][..length]);
            } else {
                self.store.lay(Room(m as u8), offset, &words.store[offset..][..length]);
            }
            self.rooms |= 1 << m;
            self.rooms_by[initiator.at()] |= 1 << m;
        }
    }

    fn read_stations(&mut self, words: &Words) {
        let rows = words.stations.chunks_exact(STATION_ROW).skip(1);
        for (t, (row, station)) in
            rows.zip(&mut self.station).take(self.stations as usize).enumerate()
        {
            station.sent = row[0] as u32;
            station.expected = std::array::from_fn(|s| row[1 + s] as u32);
            station.local = row[17];
            for (m, held) in self.held.iter().enumerate() {
                if self.rooms & (1 << m) == 0 {
                    continue;
                }
                let entry = &row[ROOM_WORDS + 3 * m..][..3];
                let waiting = words.messages[MESSAGE_ROW * m + 4] >> t & 1 == 1;
                let at = &mut station.buffered[m];
                let counts = row[COPIES] >> m & 1 == 1;
                at.copy = if waiting && counts { entry[0] } else { 0 };
                at.ack_list = if counts { entry[1] } else { 0 };
                at.queued = if row[ENTRIES] >> m & 1 == 1 { entry[2] } else { 0 };
                if waiting && held.number < station.expected[held.initiator.at()] {
                    station.buffer |= 1 << m;
                }
                if at.ack_list != 0 {
                    station.acked |= 1 << m;
                }
                if at.queued != 0 {
                    station.queue.insert(Room(m as u8), &self.held);
                }
            }
        }
    }

    fn read_lines(&mut self, words: &[u64]) {
        for (k, line) in self.lines.iter_mut().enumerate() {
            let ends = &words[LINES + 3 * k..][..3];
            let mut at = ends[0];
            for _ in 0..ends[2] {
                let row = &words[RECORDS + 3 * at as usize..][..3];
                line.push_back(read_record(row[1], row[2]));
                at = row[0];
            }
        }
    }

    /// Where two floors differ, if they do: in their size, a station, a cart, a held message with
    /// its text, what a station keeps for it, or a line. Rooms that are free are not looked at, nor
    /// the copy of a station that has handled the delete.
    pub fn difference(&self, other: &Floor) -> Option<String> {
        if self.limits != other.limits {
            return Some(format!("limits: {:?}, {:?}", self.limits, other.limits));
        }
        let size = |f: &Floor| (f.started, f.stations, f.carts, f.entered, f.rooms, f.rooms_by);
        if size(self) != size(other) {
            return Some(format!("sizes and rooms: {:?}, {:?}", size(self), size(other)));
        }
        if self.unsteady != other.unsteady {
            return Some(format!("not steady: {:x}, {:x}", self.unsteady, other.unsteady));
        }
        if self.groups != other.groups {
            return Some(format!("groups: {:x?}, {:x?}", self.groups, other.groups));
        }
        for c in 0..CARTS {
            let (a, b) = (&self.cart[c], &other.cart[c]);
            if (a.place, a.next) != (b.place, b.next) {
                return Some(format!("cart {c}: {:?}, {:?}", (a.place, a.next), (b.place, b.next)));
            }
        }
        for m in (0..HELD).filter(|m| self.rooms >> m & 1 == 1) {
            if let Some(difference) = self.message_difference(other, m) {
                return Some(difference);
            }
        }
        for t in 0..self.stations as usize {
            if let Some(difference) = self.station_difference(other, t) {
                return Some(difference);
            }
        }
        (0..STATIONS * STATIONS)
            .find(|&k| self.lines[k] != other.lines[k])
            .map(|k| format!("line {k}: {:?}, {:?}", self.lines[k], other.lines[k]))
    }

    fn message_difference(&self, other: &Floor, m: usize) -> Option<String> {
        let said = |f: &Floor| {
            let h = f.held[m];
            let text = f.text_in(Room(m as u8)).to_vec();
            (h.initiator, h.number, h.order, h.set, h.acknowledged, h.undeleted, text)
        };
        let (a, b) = (said(self), said(other));
        (a != b).then(|| format!("room {m}: {a:?}, {b:?}"))
    }

    fn station_difference(&self, other: &Floor, t: usize) -> Option<String> {
        let said = |f: &Floor| {
            let s = &f.station[t];
            (s.sent, s.expected, s.local, s.buffer, s.queue.entries().to_vec(), s.acked)
        };
        let (a, b) = (said(self), said(other));
        if a != b {
            return Some(format!("station {t}: {a:?}, {b:?}"));
        }
        (0..HELD).filter(|m| self.rooms >> m & 1 == 1).find_map(|m| {
            let said = |f: &Floor| {
                let at = &f.station[t].buffered[m];
                (at.copy, at.ack_list, at.queued)
            };
            let (a, b) = (said(self), said(other));
            (a != b).then(|| format!("room {m} at station {t}: {a:x?}, {b:x?}"))
        })
    }
}

fn read_record(word: u64, carts: u64) -> Record {
    let index = (word >> 3) as u8;
    match word & 7 {
        1 => Record::Multicast(Room(index)),
        2 => Record::AckList(Room(index), carts),
        3 => Record::Delete(Room(index)),
        4 => Record::Deregister(CartNo(index)),
        5 => Record::Register(CartNo(index)),
        kind => panic!("there are no records of kind {kind}"),
    }
}

// The text of a room has its own octets, whatever its length.
const _: () = assert!(HELD * TEXT == 1_024);
