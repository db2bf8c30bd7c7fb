//! The records of the floor.
//!
//! Sets of carts are masks of 64 bits, sets of rooms masks of 32 bits. A *room* is the place that a
//! held message has on this floor, 0 to 31; a message is named by its initiator and its number, and
//! the room is only how the records here find it without a search.

use std::collections::VecDeque;

use crate::store::Store;

/// Most stations on a floor.
pub const STATIONS: usize = 16;
/// Most carts on a floor.
pub const CARTS: usize = 64;
/// Most messages held at a time, on the whole floor.
pub const HELD: usize = 32;

/// What a product's floors have at most. The steps are the same for every product, and the records
/// here have room for the largest.
#[derive(Clone, Copy, Debug, PartialEq, Eq)]
pub struct Limits {
    pub stations: u8,
    pub carts: u8,
    /// Messages held at a time, on the whole floor.
    pub held: u8,
    /// The last number that a station gives to a message. Numbers have 32 bits in every record, and
    /// next and expected numbers reach one more than the last.
    pub last_number: u32,
}

impl Limits {
    /// The floor of document 01.
    pub const FLOOR: Limits = Limits {
        stations: STATIONS as u8,
        carts: CARTS as u8,
        held: HELD as u8,
        last_number: 4_294_967_294,
    };
    /// "Sales carries a small kit: at most 4 stations, 8 carts and 8 held messages." Its numbers are
    /// those of 16 bits: "the kit stays at 65,534".
    pub const KIT: Limits = Limits { stations: 4, carts: 8, held: 8, last_number: 65_534 };
}

/// "Sixteen groups, none defined at a start."
pub const GROUPS: usize = 16;
/// Longest text of a send, in octets.
pub const TEXT: usize = 32;
/// Longest text of a long send: "33 to 512 octets".
pub const LONG: usize = 512;
/// Octets of the store of long texts.
pub const STORE: usize = 4_096;

/// Room for a line's first records. A longer line grows once and keeps its length.
const LINE_ROOM: usize = 4;

/// A station, numbered from 0.
#[derive(Clone, Copy, Debug, PartialEq, Eq)]
pub struct StationNo(pub u8);

/// A cart, numbered from 0.
#[derive(Clone, Copy, Debug, PartialEq, Eq)]
pub struct CartNo(pub u8);

/// A named group of carts, numbered from 0.
#[derive(Clone, Copy, Debug, PartialEq, Eq)]
pub struct GroupNo(pub u8);

/// A message's number, given by its initiator.
#[derive(Clone, Copy, Debug, PartialEq, Eq, PartialOrd, Ord)]
pub struct MessageNo(pub u32);

/// The room of a held message.
#[derive(Clone, Copy, Debug, PartialEq, Eq)]
pub(crate) struct Room(pub u8);

// The events check every number before it is used as an index. The masks below change no checked
// number; they let the compiler see that the index is in range.
impl StationNo {
    #[inline(always)]
    pub(crate) fn at(self) -> usize {
        self.0 as usize % STATIONS
    }
}

impl CartNo {
    #[inline(always)]
    pub(crate) fn at(self) -> usize {
        self.0 as usize % CARTS
    }

    /// The set of this cart alone.
    #[inline(always)]
    pub fn alone(self) -> u64 {
        1 << (self.0 % CARTS as u8)
    }
}

impl Room {
    #[inline(always)]
    pub(crate) fn at(self) -> usize {
        self.0 as usize % HELD
    }

    #[inline(always)]
    pub(crate) fn alone(self) -> u32 {
        1 << (self.0 % HELD as u8)
    }
}

/// The carts of a set, lowest first.
#[inline(always)]
pub fn carts_of(mut set: u64) -> impl Iterator<Item = CartNo> {
    std::iter::from_fn(move || {
        if set == 0 {
            return None;
        }
        let cart = CartNo(set.trailing_zeros() as u8);
        set &= set - 1;
        Some(cart)
    })
}

/// The rooms of a set, lowest first.
#[inline(always)]
pub(crate) fn rooms_of(mut set: u32) -> impl Iterator<Item = Room> {
    std::iter::from_fn(move || {
        if set == 0 {
            return None;
        }
        let room = Room(set.trailing_zeros() as u8);
        set &= set - 1;
        Some(room)
    })
}

/// The stations of a set, lowest first.
#[inline(always)]
pub(crate) fn stations_of(mut set: u16) -> impl Iterator<Item = StationNo> {
    std::iter::from_fn(move || {
        if set == 0 {
            return None;
        }
        let station = StationNo(set.trailing_zeros() as u8);
        set &= set - 1;
        Some(station)
    })
}

/// Where a cart is.
#[derive(Clone, Copy, Debug, PartialEq, Eq)]
pub enum Place {
    /// Not now entered: it never was, or it has been retired.
    Outside,
    /// At a station.
    At(StationNo),
    /// It has greeted a new station; this one, the old one, has not heard.
    Leaving(StationNo),
    /// Its register is on a line.
    Travelling,
}

/// A cart's record. The next numbers stay here while the cart travels: nobody reads or writes
/// them between its deregister and its register, so the register need not carry the row.
#[derive(Clone, Copy)]
pub(crate) struct Cart {
    pub next: [u32; STATIONS],
    pub place: Place,
}

/// What a station keeps for a message. Outside the buffer all three are empty.
#[derive(Clone, Copy)]
pub(crate) struct Buffered {
    /// The station's own copy of the set.
    pub copy: u64,
    /// Carts that acknowledged here and have not been reported to the initiator.
    pub ack_list: u64,
    /// The queue entry: local carts that the message waits for.
    pub queued: u64,
}

impl Buffered {
    /// Whether the ack list "holds every local cart in the copy".
    #[inline(always)]
    pub(crate) fn is_complete(&self, local: u64) -> bool {
        self.copy & local & !self.ack_list == 0
    }
}

/// A station's queue: the rooms of its entries, the head first.
#[derive(Clone)]
pub(crate) struct Queue {
    rooms: [Room; HELD],
    length: u8,
}

// As with the numbers, the remainders below change nothing; they let the compiler see that what is
// indexed is in range.
impl Queue {
    #[inline(always)]
    pub(crate) fn entries(&self) -> &[Room] {
        &self.rooms[..self.length as usize % (HELD + 1)]
    }

    #[inline(always)]
    pub(crate) fn head(&self) -> Option<Room> {
        (self.length > 0).then_some(self.rooms[0])
    }

    /// The place of an entry, 1 for the head.
    #[inline(always)]
    pub(crate) fn place(&self, room: Room) -> u8 {
        let before = self.entries().iter().take_while(|other| **other != room);
        before.count() as u8 + 1
    }

    /// Puts a new entry where its message's order wants it, and answers its place.
    #[inline(always)]
    pub(crate) fn insert(&mut self, room: Room, held: &[Held; HELD]) -> u8 {
        let order = held[room.at()].order;
        let mut at = self.length as usize % HELD;
        while at > 0 && held[self.rooms[at - 1].at()].order > order {
            self.rooms[at] = self.rooms[at - 1];
            at -= 1;
        }
        self.rooms[at] = room;
        self.length += 1;
        at as u8 + 1
    }

    /// Takes the head out.
    #[inline(always)]
    pub(crate) fn drop_head(&mut self) {
        self.length -= 1;
        for at in 0..self.length as usize % HELD {
            self.rooms[at] = self.rooms[at + 1];
        }
    }

    /// Takes out the entries that are not to be kept.
    #[inline(always)]
    pub(crate) fn retain(&mut self, mut keep: impl FnMut(Room) -> bool) {
        let mut kept = 0;
        for at in 0..self.length as usize % (HELD + 1) {
            let room = self.rooms[at];
            self.rooms[kept] = room;
            kept += keep(room) as usize;
        }
        self.length = kept as u8;
    }
}

/// A station's record.
#[derive(Clone)]
pub(crate) struct Station {
    /// The expected number of each initiator.
    pub expected: [u32; STATIONS],
    /// Carts at this station or leaving it.
    pub local: u64,
    /// Rooms of the messages buffered here.
    pub buffer: u32,
    pub queue: Queue,
    /// Rooms of the messages whose ack list here is not empty.
    pub acked: u32,
    /// The number of its next own message.
    pub sent: u32,
    pub buffered: [Buffered; HELD],
}

/// A held message.
#[derive(Clone, Copy)]
pub(crate) struct Held {
    /// The set as sent.
    pub set: u64,
    /// Carts that the initiator knows to have it.
    pub acknowledged: u64,
    /// Its place in a queue: smaller number first, then higher initiator.
    pub order: u64,
    pub number: u32,
    pub initiator: StationNo,
    /// Stations that have not handled the delete.
    pub undeleted: u8,
    /// A text of more than 32 octets lies in the store, not here.
    pub length: u16,
    pub text: [u8; TEXT],
}

/// What a message is ordered by in a queue.
#[inline(always)]
pub(crate) fn order(number: u32, initiator: StationNo) -> u64 {
    (number as u64) << 4 | (STATIONS - 1 - initiator.at()) as u64
}

/// What travels on a line.
#[derive(Clone, Copy, Debug, PartialEq, Eq)]
pub(crate) enum Record {
    Multicast(Room),
    AckList(Room, u64),
    Delete(Room),
    Deregister(CartNo),
    Register(CartNo),
}

/// The floor: stations, carts, held messages and lines.
#[derive(Clone)]
pub struct Floor {
    pub(crate) limits: Limits,
    pub(crate) started: bool,
    pub(crate) stations: u8,
    pub(crate) carts: u8,
    /// Carts that are now entered.
    pub(crate) entered: u64,
    /// Carts that were told not to be steady. "A cart counts as steady from its entry until told",
    /// and as the flag is kept by cart, it "travels with the cart through hand-offs".
    pub(crate) unsteady: u64,
    /// The members of each group; one that has none is not defined.
    pub(crate) groups: [u64; GROUPS],
    /// Rooms in use.
    pub(crate) rooms: u32,
    /// Rooms in use by initiator.
    pub(crate) rooms_by: [u32; STATIONS],
    pub(crate) cart: [Cart; CARTS],
    pub(crate) held: [Held; HELD],
    pub(crate) station: [Station; STATIONS],
    pub(crate) lines: [VecDeque<Record>; STATIONS * STATIONS],
    pub(crate) store: Store,
}

/// The index of the line between two stations.
#[inline(always)]
pub(crate) fn line(from: StationNo, to: StationNo) -> usize {
    from.at() * STATIONS + to.at()
}

impl Default for Floor {
    fn default() -> Self {
        Self::new()
    }
}

impl Floor {
    /// A floor that is not started.
    pub fn new() -> Self {
        Self::within(Limits::FLOOR)
    }

    /// A floor of the demonstration kit, not started.
    pub fn kit() -> Self {
        Self::within(Limits::KIT)
    }

    /// A floor with the limits of its product, not started.
    pub fn within(limits: Limits) -> Self {
        let station = Station {
            expected: [0; STATIONS],
            local: 0,
            buffer: 0,
            queue: Queue { rooms: [Room(0); HELD], length: 0 },
            acked: 0,
            sent: 0,
            buffered: [Buffered { copy: 0, ack_list: 0, queued: 0 }; HELD],
        };
        let held = Held {
            set: 0,
            acknowledged: 0,
            order: 0,
            number: 0,
            initiator: StationNo(0),
            undeleted: 0,
            length: 0,
            text: [0; TEXT],
        };
        Floor {
            limits,
            started: false,
            stations: 0,
            carts: 0,
            entered: 0,
            unsteady: 0,
            groups: [0; GROUPS],
            rooms: 0,
            rooms_by: [0; STATIONS],
            cart: [Cart { next: [0; STATIONS], place: Place::Outside }; CARTS],
            held: [held; HELD],
            station: std::array::from_fn(|_| station.clone()),
            lines: std::array::from_fn(|_| VecDeque::with_capacity(LINE_ROOM)),
            store: Store::new(),
        }
    }

    /// The carts that are on this floor, entered or not.
    #[inline(always)]
    pub(crate) fn all_carts(&self) -> u64 {
        match self.carts {
            0 => 0,
            n => u64::MAX >> (CARTS as u32 - n as u32),
        }
    }
}

/// Looking at a floor from outside, for programs that choose events. No event is among these.
impl Floor {
    pub fn limits(&self) -> Limits {
        self.limits
    }

    pub fn stations(&self) -> u8 {
        self.stations
    }

    pub fn carts(&self) -> u8 {
        self.carts
    }

    /// Carts that are now entered.
    pub fn entered(&self) -> u64 {
        self.entered
    }

    /// Carts on the floor that are not steady. The flag of one that retired is kept until it enters
    /// again, but nobody asks for it.
    pub fn unsteady(&self) -> u64 {
        self.unsteady & self.entered
    }

    /// The members of a group, none if it is not defined or there is no such group.
    pub fn group(&self, group: GroupNo) -> u64 {
        self.groups.get(group.0 as usize).copied().unwrap_or(0)
    }

    pub fn place(&self, cart: CartNo) -> Place {
        self.cart[cart.at()].place
    }

    /// The next number of a cart for an initiator.
    pub fn next(&self, cart: CartNo, initiator: StationNo) -> u32 {
        self.cart[cart.at()].next[initiator.at()]
    }

    /// Carts at a station or leaving it.
    pub fn local(&self, station: StationNo) -> u64 {
        self.station[station.at()].local
    }

    /// Carts that a held message names, by the set as sent.
    pub fn named(&self) -> u64 {
        rooms_of(self.rooms).fold(0, |named, room| named | self.held[room.at()].set)
    }

    /// How many messages are held.
    pub fn held(&self) -> usize {
        self.rooms.count_ones() as usize
    }

    /// How many octets of the store of long texts are free.
    pub fn free_octets(&self) -> usize {
        self.store.free()
    }

    /// How many messages a station has sent, which is the number of its next one.
    pub fn sent(&self, station: StationNo) -> u32 {
        self.station[station.at()].sent
    }

    /// How many records are on a line.
    pub fn on_line(&self, from: StationNo, to: StationNo) -> usize {
        self.lines[line(from, to)].len()
    }

    /// The carts of the entry at the head of a station's queue.
    pub fn head(&self, station: StationNo) -> Option<u64> {
        let here = &self.station[station.at()];
        here.queue.head().map(|room| here.buffered[room.at()].queued)
    }
}
