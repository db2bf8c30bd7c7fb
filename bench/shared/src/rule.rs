//! The form rule in plain Rust: the written yes-or-no test of `crates/protocol/specs/Form.antt` over the words that
//! docs/ARCHITECTURE.md lays out under "The lent parts", as one would write it by hand, with masks.
//! It leans on nothing else here, so another program may include this file.

const STATIONS: usize = 16;
const CARTS: usize = 64;
const GROUPS: usize = 16;
const ROOMS: usize = 32;
const ROWS: usize = 3_136;
const TEXTS: usize = 1_024;
const TEXT: u64 = 32;
const LONG: u64 = 512;
const STORE: usize = 4_096;
/// "the last number being 4,294,967,294", so no station has sent more than this.
const MOST_SENT: u64 = 4_294_967_295;

/// The clause that a floor breaks.
#[derive(Clone, Copy, PartialEq, Eq, PartialOrd, Ord, Debug)]
pub enum Fault {
    Lengths,
    NotStarted,
    Counts,
    Station,
    PlaceWords,
    Cart,
    LocalMask,
    Group,
    RoomSets,
    TextLength,
    OverStore,
    TextOverText,
    Number,
    SameName,
    EarlyDelete,
    EntrySets,
    Queue,
    AckedTwice,
    Copy,
    Chain,
    BeyondFloor,
    RecordRoom,
    Multicast,
    AckList,
    Delete,
    DeletedTwice,
    HandOff,
    Order,
    FreeRows,
    Acknowledged,
    LostHandOff,
    RegisterRow,
}

use Fault::*;

/// Which rooms' copies and ack lists count at a station, and which rooms' queue entries.
const COPIES: usize = 114;
const ENTRIES: usize = 115;

/// Where the groups begin in the floor's own row, with a word each for their members.
const GROUP_WORDS: usize = 3;

/// The first word of a cart's row is the kind of its place, and so much more if the cart is not steady.
const UNSTEADY: u64 = 4;

type StationRow = [u64; 116];
type CartRow = [u64; 19];

/// What the tables say of a room.
#[derive(Clone, Copy, Default)]
struct Room {
    initiator: usize,
    number: u64,
    named: u64,
    acked: u64,
    /// None where the room is free.
    waiting: u64,
    /// Carts whose acknowledgement was met in some place.
    met: u64,
}

struct Floor<'a> {
    stations: &'a [StationRow; 1 + STATIONS],
    carts: &'a [CartRow; CARTS],
    messages: &'a [[u64; 7]; ROOMS],
    free: &'a [u64; 49],
    summary: u64,
    ends: &'a [[u64; 3]; STATIONS * STATIONS],
    /// The row that the register of each cart carries.
    registers: &'a [[u64; STATIONS]; CARTS],
    rows: &'a [[u64; 3]; ROWS],
    n: usize,
    k: usize,
    all_stations: u64,
    all_carts: u64,
    sent: [u64; STATIONS],
    rooms: [Room; ROOMS],
    /// Carts that have entered, and of these the ones leaving or travelling.
    entered: u64,
    movers: u64,
}

/// Does a lent floor pass the form rule?
pub fn passes(
    stations: &[u64],
    carts: &[u64],
    messages: &[u64],
    lines: &[u64],
    texts: &[u8],
    store: &[u8],
) -> bool {
    check(stations, carts, messages, lines, texts, store).is_ok()
}

/// The same, and where it does not, a clause that it breaks.
pub fn check(
    stations: &[u64],
    carts: &[u64],
    messages: &[u64],
    lines: &[u64],
    texts: &[u8],
    store: &[u8],
) -> Result<(), Fault> {
    let (all_ends, all_registers) = (3 * STATIONS * STATIONS, STATIONS * CARTS);
    if lines.len() != 50 + all_ends + all_registers + 3 * ROWS {
        return Err(Lengths);
    }
    ensure(texts.len() == TEXTS && store.len() == STORE, Lengths)?;
    let (ends, rest) = lines[50..].split_at(all_ends);
    let (registers, rows) = rest.split_at(all_registers);
    let mut floor = Floor {
        stations: rows_of(stations)?,
        carts: rows_of(carts)?,
        messages: rows_of(messages)?,
        free: lines.first_chunk().ok_or(Lengths)?,
        summary: lines[49],
        ends: rows_of(ends)?,
        registers: rows_of(registers)?,
        rows: rows_of(rows)?,
        n: 0,
        k: 0,
        all_stations: 0,
        all_carts: 0,
        sent: [0; STATIONS],
        rooms: [Room::default(); ROOMS],
        entered: 0,
        movers: 0,
    };
    floor.head()?;
    floor.carts()?;
    floor.groups()?;
    floor.rooms()?;
    floor.entries()?;
    floor.lines()
}

fn rows_of<const W: usize, const N: usize>(words: &[u64]) -> Result<&[[u64; W]; N], Fault> {
    match words.as_chunks() {
        (rows, []) => rows.try_into().map_err(|_| Lengths),
        _ => Err(Lengths),
    }
}

/// The greatest set of the first n, of which there is one at least.
fn all(n: usize) -> u64 {
    u64::MAX >> (64 - n)
}

/// A text that is long lies within the store, and on none of those before it.
fn lies_right(stored: &mut Vec<(u64, u64)>, length: u64, offset: u64) -> Result<(), Fault> {
    if length <= TEXT {
        return Ok(());
    }
    ensure(length <= LONG, TextLength)?;
    ensure(offset <= STORE as u64 - length, OverStore)?;
    let (from, to) = (offset, offset + length);
    ensure(stored.iter().all(|&(a, b)| b <= from || to <= a), TextOverText)?;
    stored.push((from, to));
    Ok(())
}

fn within(a: u64, b: u64) -> bool {
    a & !b == 0
}

/// The word of room m where that room is among those which count; else it has none.
fn counted(among: u64, m: usize, word: u64) -> u64 {
    if among >> m & 1 == 1 {
        word
    } else {
        0
    }
}

/// The members of a set, lowest first.
fn members(mut set: u64) -> impl Iterator<Item = usize> {
    std::iter::from_fn(move || {
        (set != 0).then(|| {
            let c = set.trailing_zeros() as usize;
            set &= set - 1;
            c
        })
    })
}

fn ensure(holds: bool, fault: Fault) -> Result<(), Fault> {
    if holds {
        Ok(())
    } else {
        Err(fault)
    }
}

impl Floor<'_> {
    fn head(&mut self) -> Result<(), Fault> {
        let [mark, n, k, ..] = self.stations[0];
        ensure(mark == 1, NotStarted)?;
        ensure((1..=STATIONS as u64).contains(&n) && (1..=CARTS as u64).contains(&k), Counts)?;
        (self.n, self.k) = (n as usize, k as usize);
        (self.all_stations, self.all_carts) = (all(self.n), all(self.k));
        self.sent = std::array::from_fn(|s| self.stations[1 + s][0]);
        ensure(self.sent.iter().all(|&sent| sent <= MOST_SENT), Station)?;
        ensure(self.sent[self.n..].iter().all(|&sent| sent == 0), Station)
    }

    /// Places and next numbers; from the places the local carts, those that have entered and those on their way.
    fn carts(&mut self) -> Result<(), Fault> {
        let mut local = [0; STATIONS];
        for (c, row) in self.carts.iter().enumerate() {
            let [first, s, t, next @ ..] = row;
            ensure(*first < 2 * UNSTEADY, PlaceWords)?;
            let (kind, s, t) = (first % UNSTEADY, *s as usize, *t as usize);
            if kind == 0 {
                ensure(s | t == 0, PlaceWords)?;
                ensure(next.iter().fold(0, |all, x| all | x) == 0, Cart)?;
                continue;
            }
            ensure(kind != 1 || t == 0, PlaceWords)?;
            ensure(s < self.n && t < self.n && c < self.k, Cart)?;
            ensure(next.iter().zip(&self.sent).fold(true, |ok, (x, y)| ok & (x <= y)), Cart)?;
            self.entered |= 1 << c;
            if kind != 3 {
                local[s & 15] |= 1 << c;
            }
            if kind != 1 {
                self.movers |= 1 << c;
            }
        }
        ensure((0..STATIONS).all(|t| self.stations[1 + t][17] == local[t]), LocalMask)
    }

    /// Members are carts of the floor that have entered.
    fn groups(&self) -> Result<(), Fault> {
        let groups = &self.stations[0][GROUP_WORDS..][..GROUPS];
        ensure(groups.iter().all(|&members| within(members, self.entered)), Group)
    }

    fn rooms(&mut self) -> Result<(), Fault> {
        let mut names = [0; ROOMS];
        let mut held = 0;
        let mut stored = vec![];
        for (room, row) in self.rooms.iter_mut().zip(self.messages) {
            let [initiator, number, named, acked, waiting, length, offset] = *row;
            ensure(
                within(named | acked, self.all_carts) && within(waiting, self.all_stations),
                RoomSets,
            )?;
            if waiting == 0 {
                continue;
            }
            lies_right(&mut stored, length, offset)?;
            ensure(initiator < 16 && number < self.sent[initiator as usize & 15], Number)?;
            let name = initiator << 32 | number;
            ensure(!names[..held].contains(&name), SameName)?;
            names[held] = name;
            held += 1;
            ensure(waiting == self.all_stations || acked == named, EarlyDelete)?;
            *room =
                Room { initiator: initiator as usize, number, named, acked, waiting, met: acked };
        }
        Ok(())
    }

    /// The copy, the ack list and the queue's entry of each room at each station.
    fn entries(&mut self) -> Result<(), Fault> {
        let mut missing = [0; ROOMS];
        let mut sets = 0;
        for (t, row) in self.stations[1..].iter().enumerate() {
            let (entries, _) = row[18..COPIES].as_chunks::<3>();
            for ((m, room), &[copy, acks, queue]) in self.rooms.iter_mut().enumerate().zip(entries)
            {
                let (copy, acks) = (counted(row[COPIES], m, copy), counted(row[COPIES], m, acks));
                let queue = counted(row[ENTRIES], m, queue);
                sets |= copy | acks | queue;
                if queue != 0 {
                    ensure(room.waiting != 0 && within(queue, row[17] & room.named), Queue)?;
                    let next = |c: usize| self.carts[c][3 + (room.initiator & 15)];
                    ensure(members(queue).all(|c| next(c) == room.number), Queue)?;
                }
                if room.waiting == 0 || t >= self.n {
                    continue;
                }
                ensure(within(copy, room.named), Copy)?;
                if room.number < row[1 + (room.initiator & 15)] {
                    missing[m] |= room.named & !copy;
                }
                ensure(acks & room.met == 0, AckedTwice)?;
                room.met |= acks;
            }
        }
        ensure(within(sets, self.all_carts), EntrySets)?;
        for (room, missing) in self.rooms.iter().zip(missing) {
            ensure(self.have_passed(room, missing), Copy)?;
        }
        Ok(())
    }

    /// Is the next number of each of these carts above the message's?
    fn have_passed(&self, room: &Room, set: u64) -> bool {
        members(set).all(|c| self.carts[c][3 + (room.initiator & 15)] > room.number)
    }

    /// One walk over the lines, for their chains and for their records.
    fn lines(&mut self) -> Result<(), Fault> {
        let mut seen = [0u64; 49];
        let mut found = 0;
        for i in 0..STATIONS {
            for j in 0..STATIONS {
                self.line(i, j, &mut seen, &mut found)?;
            }
        }
        let whole = seen.iter().zip(self.free).fold(true, |ok, (x, y)| ok & (*x == !y));
        let summary =
            self.free.iter().enumerate().fold(0, |sum, (w, x)| sum | ((*x != 0) as u64) << w);
        ensure(whole && summary == self.summary, FreeRows)?;
        ensure(found == self.movers, LostHandOff)?;
        for room in self.rooms.iter().filter(|room| room.waiting != 0) {
            ensure(within(room.met, room.named) && self.have_passed(room, room.met), Acknowledged)?;
        }
        Ok(())
    }

    #[inline]
    fn line(
        &mut self,
        i: usize,
        j: usize,
        seen: &mut [u64; 49],
        found: &mut u64,
    ) -> Result<(), Fault> {
        let [head, tail, length] = self.ends[16 * i + j];
        let mut next = self.stations[1 + j][1 + i];
        if length != 0 {
            ensure(i < self.n && j < self.n, BeyondFloor)?;
            let (mut at, mut last, mut gone) = (head, tail, 0);
            for _ in 0..length {
                let Some(&[link, word, carts]) = self.rows.get(at as usize) else {
                    return Err(Chain);
                };
                let mark = &mut seen[at as usize / 64];
                ensure(*mark >> (at % 64) & 1 == 0, Chain)?;
                *mark |= 1 << (at % 64);
                self.record(i, j, word, carts, &mut next, &mut gone, found)?;
                last = at;
                at = link;
            }
            ensure(last == tail, Chain)?;
        }
        ensure(j >= self.n || next == self.sent[i], Order)
    }

    #[inline(always)]
    #[allow(clippy::too_many_arguments)]
    fn record(
        &mut self,
        i: usize,
        j: usize,
        word: u64,
        carts: u64,
        next: &mut u64,
        gone: &mut u64,
        found: &mut u64,
    ) -> Result<(), Fault> {
        let (kind, index, number) = (word & 7, (word >> 3 & 255) as usize, word >> 11);
        if kind == 4 || kind == 5 {
            let way = if kind == 4 { [2, j as u64, i as u64] } else { [3, i as u64, j as u64] };
            let [first, s, t, next @ ..] = &self.carts[index & 63];
            ensure(index < self.k && [first % UNSTEADY, *s, *t] == way, HandOff)?;
            ensure(*found >> index & 1 == 0, HandOff)?;
            *found |= 1 << index;
            let carried = self.registers[index & 63] == *next;
            ensure(kind == 4 || carried, RegisterRow)?;
            return Ok(());
        }
        ensure(kind != 0 && kind < 6 && index < ROOMS, RecordRoom)?;
        let room = &mut self.rooms[index & 31];
        let from = if kind == 2 { j } else { i };
        ensure(room.waiting != 0 && room.initiator == from && room.number == number, RecordRoom)?;
        match kind {
            1 => {
                ensure(room.waiting >> j & 1 == 1, Multicast)?;
                ensure(number == *next, Order)?;
                *next += 1;
            }
            2 => {
                ensure(carts != 0 && within(carts, self.all_carts), AckList)?;
                ensure(carts & room.met == 0, AckedTwice)?;
                room.met |= carts;
            }
            _ => {
                ensure(room.waiting >> j & 1 == 1 && room.acked == room.named, Delete)?;
                ensure(number < *next, Order)?;
                ensure(*gone >> index & 1 == 0, DeletedTwice)?;
                *gone |= 1 << index;
            }
        }
        Ok(())
    }
}
