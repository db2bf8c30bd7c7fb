//! The events of the floor. Each checks down the table of refusals, the first that applies being
//! the answer, and changes nothing before the last check has passed.

use crate::floor::{
    carts_of, line, order, rooms_of, stations_of, Cart, CartNo, Floor, GroupNo, Held, MessageNo,
    Place, Record, Room, StationNo, LONG, STATIONS, TEXT,
};

/// What an accepted event answers.
#[derive(Clone, Copy, Debug, PartialEq, Eq)]
pub struct Step {
    pub a: u16,
    pub b: u32,
    /// Numbers passed over: raised without a receipt.
    pub p: u64,
    /// Records put on lines.
    pub w: u8,
    /// "The largest place given in that step, 0 if no cart was queued."
    pub q: u8,
}

/// Why a frame or an event is refused.
#[derive(Clone, Copy, Debug, PartialEq, Eq)]
#[repr(u8)]
pub enum Refusal {
    CutFrame = 1,
    UnknownKind = 2,
    StrayField = 3,
    LongText = 4,
    NotStarted = 5,
    AlreadyStarted = 6,
    FloorSize = 7,
    NoSuchStation = 8,
    NoSuchCart = 9,
    AlreadyEntered = 10,
    EmptySet = 11,
    NamedNotEntered = 12,
    NumbersUsedUp = 13,
    NoRoom = 14,
    LineEmpty = 15,
    NotAtStation = 16,
    NotAtHead = 17,
    NotEntered = 18,
    InHandOff = 19,
    AlreadyThere = 20,
    ShortBuffer = 21,
    EmptyText = 24,
    NotSteady = 25,
    NoSuchGroup = 26,
    StoreFull = 27,
    NotHeld = 28,
    StillNamed = 29,
    ListsFull = 30,
    ListEmpty = 31,
}

impl Refusal {
    /// The number in the table.
    #[inline(always)]
    pub fn number(self) -> u8 {
        self as u8
    }

    /// Refusals of the frame itself end a run: what follows cannot be taken apart.
    #[inline(always)]
    pub fn ends_run(self) -> bool {
        self.number() <= 4
    }
}

const MULTICAST: u16 = 1;
const ACK_LIST: u16 = 2;
const DELETE: u16 = 3;
const DEREGISTER: u16 = 4;
const REGISTER: u16 = 5;

impl Floor {
    /// Starts the floor with its stations and carts.
    #[inline]
    pub fn start(&mut self, stations: u8, carts: u8) -> Result<Step, Refusal> {
        if self.started {
            return Err(Refusal::AlreadyStarted);
        }
        // "Refusals 5 (form rule and lent lengths), 7 and 14 use the caller's limits."
        let most = self.limits;
        if !(1..=most.stations).contains(&stations) || !(1..=most.carts).contains(&carts) {
            return Err(Refusal::FloorSize);
        }
        // A floor is started once, and `new` left everything else empty.
        self.started = true;
        self.stations = stations;
        self.carts = carts;
        Ok(Step { a: stations as u16, b: carts as u32, p: 0, w: 0, q: 0 })
    }

    /// A cart comes onto the floor at a station.
    #[inline]
    pub fn enter(&mut self, station: StationNo, cart: CartNo) -> Result<Step, Refusal> {
        self.check_started()?;
        self.check_station(station)?;
        self.check_cart(cart)?;
        if self.entered & cart.alone() != 0 {
            return Err(Refusal::AlreadyEntered);
        }
        self.entered |= cart.alone();
        // "A cart counts as steady from its entry until told".
        self.unsteady &= !cart.alone();
        let (p, q) = self.register(station, cart);
        Ok(Step { a: station.0 as u16, b: cart.0 as u32, p, w: 0, q })
    }

    /// A station initiates a message to a set of carts.
    #[inline]
    pub fn send(&mut self, station: StationNo, set: u64, text: &[u8]) -> Result<Step, Refusal> {
        if text.len() > TEXT {
            return Err(Refusal::LongText);
        }
        self.check_named(station, set)?;
        let number = self.check_post(station, text)?;
        Ok(self.post(station, number, set, text))
    }

    /// "A send whose text has 33 to 512 octets."
    #[inline(never)]
    pub fn send_long(
        &mut self,
        station: StationNo,
        set: u64,
        text: &[u8],
    ) -> Result<Step, Refusal> {
        if !(TEXT + 1..=LONG).contains(&text.len()) {
            return Err(Refusal::LongText);
        }
        self.check_named(station, set)?;
        let number = self.check_post(station, text)?;
        // "27 free octets in the store, counted together, fewer than the length, after 14."
        if self.store.free() < text.len() {
            return Err(Refusal::StoreFull);
        }
        Ok(self.post(station, number, set, text))
    }

    /// A station initiates a message "to the members as they are at that send". The set is copied
    /// with it, so "a later change of the group touches no message already sent". The members are
    /// entered: that was asked when the group was defined, and a cart that retires leaves it.
    #[inline(never)]
    pub fn send_to_group(
        &mut self,
        station: StationNo,
        group: GroupNo,
        text: &[u8],
    ) -> Result<Step, Refusal> {
        if text.len() > TEXT {
            return Err(Refusal::LongText);
        }
        self.check_started()?;
        self.check_station(station)?;
        // "26 group not defined or above 15, after 8, then 24, 13, 14."
        let members = self.group(group);
        if members == 0 {
            return Err(Refusal::NoSuchGroup);
        }
        let number = self.check_post(station, text)?;
        Ok(self.post(station, number, members, text))
    }

    /// A group gets its members; "an empty set undefines the group". It "prints group and number
    /// of members".
    #[inline(never)]
    pub fn set_group(&mut self, group: GroupNo, set: u64) -> Result<Step, Refusal> {
        self.check_started()?;
        if set & !self.all_carts() != 0 {
            return Err(Refusal::NoSuchCart);
        }
        if set & !self.entered != 0 {
            return Err(Refusal::NamedNotEntered);
        }
        // "12 after 9, then 26 for a library group above 15."
        let Some(members) = self.groups.get_mut(group.0 as usize) else {
            return Err(Refusal::NoSuchGroup);
        };
        *members = set;
        Ok(Step { a: group.0 as u16, b: set.count_ones(), p: 0, w: 0, q: 0 })
    }

    /// The step of every send: the message takes the station's number and a room, and a multicast
    /// goes on the line to every station.
    #[inline(always)]
    fn post(&mut self, station: StationNo, number: u32, set: u64, text: &[u8]) -> Step {
        let room = Room(self.rooms.trailing_ones() as u8);
        self.station[station.at()].sent = number + 1;
        self.rooms |= room.alone();
        self.rooms_by[station.at()] |= room.alone();
        let held = &mut self.held[room.at()];
        *held = Held {
            set,
            acknowledged: 0,
            order: order(number, station),
            number,
            initiator: station,
            undeleted: self.stations,
            length: text.len() as u16,
            text: [0; TEXT],
        };
        match held.text.get_mut(..text.len()) {
            Some(front) => front.copy_from_slice(text),
            None => self.store.put(room, text),
        }
        let w = self.put_on_all_lines(station, Record::Multicast(room));
        Step { a: station.0 as u16, b: number, p: 0, w, q: 0 }
    }

    /// The head record of a line is handled at its end.
    #[inline]
    pub fn wire(&mut self, from: StationNo, to: StationNo) -> Result<Step, Refusal> {
        self.check_started()?;
        self.check_station(from)?;
        self.check_station(to)?;
        let Some(record) = self.lines[line(from, to)].pop_front() else {
            return Err(Refusal::LineEmpty);
        };
        let (a, b, p, w, q) = match record {
            Record::Multicast(room) => {
                let (p, q) = self.multicast(to, room);
                (MULTICAST, self.held[room.at()].number, p, 0, q)
            }
            Record::AckList(room, carts) => {
                let w = self.ack_list(to, room, carts);
                (ACK_LIST, self.held[room.at()].number, 0, w, 0)
            }
            Record::Delete(room) => {
                self.delete(to, room);
                (DELETE, self.held[room.at()].number, 0, 0, 0)
            }
            Record::Deregister(cart) => {
                let w = self.deregister(from, to, cart);
                (DEREGISTER, cart.0 as u32, 0, w, 0)
            }
            Record::Register(cart) => {
                let (p, q) = self.register(to, cart);
                (REGISTER, cart.0 as u32, p, 0, q)
            }
        };
        Ok(Step { a, b, p, w, q })
    }

    /// The head message of a station's queue is handed to a cart, which acknowledges it. The text
    /// is written at the front of the lent buffer; the answer has its length beside the step.
    #[inline]
    pub fn radio(
        &mut self,
        station: StationNo,
        cart: CartNo,
        buffer: &mut [u8],
    ) -> Result<(Step, usize), Refusal> {
        let room = self.check_radio(station, cart)?;
        let held = &self.held[room.at()];
        let length = held.length as usize;
        let Some(front) = buffer.get_mut(..length) else {
            return Err(Refusal::ShortBuffer);
        };
        front.copy_from_slice(self.text_in(room));

        let (initiator, number) = (held.initiator, held.number);
        let here = &mut self.station[station.at()];
        let buffered = &mut here.buffered[room.at()];
        buffered.queued &= !cart.alone();
        buffered.ack_list |= cart.alone();
        here.acked |= room.alone();
        let (emptied, complete) = (buffered.queued == 0, buffered.is_complete(here.local));
        if complete {
            self.send_ack_list(station, room);
        }
        if emptied {
            self.station[station.at()].queue.drop_head();
        }
        self.cart[cart.at()].next[initiator.at()] += 1;
        let (p, q) = self.catch_up(station, cart, initiator);
        Ok((Step { a: initiator.0 as u16, b: number, p, w: complete as u8, q }, length))
    }

    /// A cart greets a new station.
    #[inline]
    pub fn move_cart(&mut self, cart: CartNo, to: StationNo) -> Result<Step, Refusal> {
        self.check_started()?;
        self.check_station(to)?;
        self.check_cart(cart)?;
        let old = match self.cart[cart.at()].place {
            Place::Outside => return Err(Refusal::NotEntered),
            Place::Leaving(_) | Place::Travelling => return Err(Refusal::InHandOff),
            Place::At(old) if old == to => return Err(Refusal::AlreadyThere),
            Place::At(old) => old,
        };
        self.cart[cart.at()].place = Place::Leaving(old);
        self.lines[line(to, old)].push_back(Record::Deregister(cart));
        Ok(Step { a: cart.0 as u16, b: to.0 as u32, p: 0, w: 1, q: 0 })
    }

    /// A cart's vacuum is steady, or is not. It "prints cart and flag with p = 0 and w = 0".
    #[inline]
    pub fn set_steady(&mut self, cart: CartNo, steady: bool) -> Result<Step, Refusal> {
        self.check_started()?;
        self.check_cart(cart)?;
        if self.entered & cart.alone() == 0 {
            return Err(Refusal::NotEntered);
        }
        if steady {
            self.unsteady &= !cart.alone();
        } else {
            self.unsteady |= cart.alone();
        }
        Ok(Step { a: cart.0 as u16, b: steady as u32, p: 0, w: 0, q: 0 })
    }

    /// A cart goes back to the factory: "the number becomes outside, leaves every group, and a group
    /// that this empties is undefined. It may enter again, with all next numbers 0 and steady." No
    /// held message names it, so it is in no queue entry and in no ack list.
    #[inline(never)]
    pub fn retire(&mut self, cart: CartNo) -> Result<Step, Refusal> {
        self.check_started()?;
        self.check_cart(cart)?;
        let station = match self.cart[cart.at()].place {
            Place::Outside => return Err(Refusal::NotEntered),
            Place::Leaving(_) | Place::Travelling => return Err(Refusal::InHandOff),
            Place::At(station) => station,
        };
        if self.named() & cart.alone() != 0 {
            return Err(Refusal::StillNamed);
        }
        self.cart[cart.at()] = Cart { next: [0; STATIONS], place: Place::Outside };
        self.station[station.at()].local &= !cart.alone();
        self.entered &= !cart.alone();
        self.groups.iter_mut().for_each(|members| *members &= !cart.alone());
        Ok(Step { a: cart.0 as u16, b: 0, p: 0, w: 0, q: 0 })
    }

    /// The text of a held message.
    #[inline(always)]
    pub(crate) fn text_in(&self, room: Room) -> &[u8] {
        let held = &self.held[room.at()];
        match held.text.get(..held.length as usize) {
            Some(text) => text,
            None => self.store.text(room),
        }
    }

    /// "An extra reading call, by initiator and number, lends back that text's own part of the
    /// short table or of the long store"; the empty part if it is refused.
    pub fn read(&self, initiator: StationNo, number: MessageNo) -> &[u8] {
        self.held_at(initiator, number).map_or(&[], |room| self.text_in(room))
    }

    /// The "call beside it gives the number, 0 if not refused".
    pub fn read_refusal(&self, initiator: StationNo, number: MessageNo) -> u8 {
        self.held_at(initiator, number).map_or_else(Refusal::number, |_| 0)
    }

    /// "For the reading call, 5, 8, then 28 message not held."
    fn held_at(&self, initiator: StationNo, number: MessageNo) -> Result<Room, Refusal> {
        self.check_started()?;
        self.check_station(initiator)?;
        rooms_of(self.rooms_by[initiator.at()])
            .find(|room| self.held[room.at()].number == number.0)
            .ok_or(Refusal::NotHeld)
    }

    /// The checks of a send to a set, in their order, down to 12.
    #[inline(always)]
    fn check_named(&self, station: StationNo, set: u64) -> Result<(), Refusal> {
        self.check_started()?;
        self.check_station(station)?;
        if set & !self.all_carts() != 0 {
            return Err(Refusal::NoSuchCart);
        }
        if set == 0 {
            return Err(Refusal::EmptySet);
        }
        if set & !self.entered != 0 {
            return Err(Refusal::NamedNotEntered);
        }
        Ok(())
    }

    /// The last checks of every send, of text, number and room.
    #[inline(always)]
    fn check_post(&self, station: StationNo, text: &[u8]) -> Result<u32, Refusal> {
        // "A send with length 0 is now turned away"; "24 empty text, after 12 and before 13".
        if text.is_empty() {
            return Err(Refusal::EmptyText);
        }
        let number = self.station[station.at()].sent;
        if number > self.limits.last_number {
            return Err(Refusal::NumbersUsedUp);
        }
        if self.rooms.count_ones() >= self.limits.held as u32 {
            return Err(Refusal::NoRoom);
        }
        Ok(number)
    }

    /// The checks of a radio step, in their order, but for the buffer's; the room of the message.
    #[inline(always)]
    fn check_radio(&self, station: StationNo, cart: CartNo) -> Result<Room, Refusal> {
        self.check_started()?;
        self.check_station(station)?;
        self.check_cart(cart)?;
        if self.cart[cart.at()].place != Place::At(station) {
            return Err(Refusal::NotAtStation);
        }
        // "For radio, 25 not steady, after 16 and before 17."
        if self.unsteady & cart.alone() != 0 {
            return Err(Refusal::NotSteady);
        }
        let here = &self.station[station.at()];
        match here.queue.head() {
            Some(room) if here.buffered[room.at()].queued & cart.alone() != 0 => Ok(room),
            _ => Err(Refusal::NotAtHead),
        }
    }

    #[inline(always)]
    pub(crate) fn check_started(&self) -> Result<(), Refusal> {
        if self.started {
            Ok(())
        } else {
            Err(Refusal::NotStarted)
        }
    }

    #[inline(always)]
    fn check_station(&self, station: StationNo) -> Result<(), Refusal> {
        if station.0 < self.stations {
            Ok(())
        } else {
            Err(Refusal::NoSuchStation)
        }
    }

    #[inline(always)]
    fn check_cart(&self, cart: CartNo) -> Result<(), Refusal> {
        if cart.0 < self.carts {
            Ok(())
        } else {
            Err(Refusal::NoSuchCart)
        }
    }
}

/// What the records do at the station they arrive at. Each answers what it has of p, w and q, where
/// it has one: "all steps that queue carry it upward".
impl Floor {
    /// A multicast "shall find out once for each cart whether it is local, before it goes over
    /// queue and copy. The answers make a row, yes exactly for the local carts".
    #[inline(always)]
    fn multicast(&mut self, at: StationNo, room: Room) -> (u64, u8) {
        let row = self.station[at.at()].local;
        self.multicast_by(row, at, room)
    }

    /// The rest of the step "takes it from that row alone", whatever the carts' records say: the
    /// message is buffered, and each cart of the row is queued for it, passes it over, or is struck
    /// from the copy since it has it from another station.
    #[inline(always)]
    fn multicast_by(&mut self, row: u64, at: StationNo, room: Room) -> (u64, u8) {
        let Held { initiator, number, set, .. } = self.held[room.at()];
        let here = &mut self.station[at.at()];
        here.expected[initiator.at()] = number + 1;
        here.buffer |= room.alone();

        let (mut copy, mut queued, mut p) = (set, 0, 0);
        for cart in carts_of(row) {
            let next = &mut self.cart[cart.at()].next[initiator.at()];
            let named = set & cart.alone();
            if *next == number {
                queued |= named;
                let passed = (named == 0) as u32;
                *next += passed;
                p += passed as u64;
            } else if *next > number {
                copy &= !named;
            }
        }
        let buffered = &mut here.buffered[room.at()];
        buffered.copy = copy;
        // All of them are put in one entry, which has the same place after each.
        let q = if queued != 0 { self.enqueue(at, room, queued) } else { 0 };
        (p, q)
    }

    /// An ack list at the initiator. The set as sent decides, not the copy that a station strikes
    /// carts from.
    #[inline(always)]
    fn ack_list(&mut self, at: StationNo, room: Room, carts: u64) -> u8 {
        let held = &mut self.held[room.at()];
        held.acknowledged |= carts;
        if held.acknowledged != held.set {
            return 0;
        }
        self.put_on_all_lines(at, Record::Delete(room))
    }

    /// A delete: the message leaves the buffer, and with the last one its room is free. Nobody is
    /// queued for it: every cart it names has it.
    #[inline(always)]
    fn delete(&mut self, at: StationNo, room: Room) {
        let here = &mut self.station[at.at()];
        here.buffer &= !room.alone();
        here.buffered[room.at()].copy = 0;
        let held = &mut self.held[room.at()];
        held.undeleted -= 1;
        if held.undeleted == 0 {
            self.rooms &= !room.alone();
            self.rooms_by[held.initiator.at()] &= !room.alone();
            if held.length as usize > TEXT {
                self.store.clear(room);
            }
        }
    }

    /// A deregister at the old station. Until now the cart was local here, so what was queued for
    /// it meanwhile leaves with it. It stays in the ack lists. "These lists go on the lines before
    /// the register, and w counts them."
    #[inline(always)]
    fn deregister(&mut self, new: StationNo, old: StationNo, cart: CartNo) -> u8 {
        let here = &mut self.station[old.at()];
        here.local &= !cart.alone();
        let buffered = &mut here.buffered;
        here.queue.retain(|room| {
            let queued = &mut buffered[room.at()].queued;
            *queued &= !cart.alone();
            *queued != 0
        });
        let lists = self.send_complete_lists(old);
        self.cart[cart.at()].place = Place::Travelling;
        self.lines[line(old, new)].push_back(Record::Register(cart));
        lists + 1
    }

    /// "A deregister step, after the cart has left the local list, tests every buffered message
    /// here in queue order (smallest number, then higher initiator): if its ack list is not empty
    /// and holds every local cart in the copy, the list is sent, struck and emptied." Answers how
    /// many went.
    #[inline(always)]
    fn send_complete_lists(&mut self, at: StationNo) -> u8 {
        let here = &self.station[at.at()];
        // What one list does changes no other, so all are tested before the first goes.
        let mut complete = rooms_of(here.buffer & here.acked)
            .filter(|room| here.buffered[room.at()].is_complete(here.local))
            .fold(0, |rooms, room| rooms | room.alone());
        let lists = complete.count_ones() as u8;
        while let Some(room) = rooms_of(complete).min_by_key(|room| self.held[room.at()].order) {
            complete &= !room.alone();
            self.send_ack_list(at, room);
        }
        lists
    }

    /// The ack list of a message goes to its initiator, the carts are struck from the copy, and
    /// the list is emptied.
    #[inline(always)]
    fn send_ack_list(&mut self, at: StationNo, room: Room) {
        let here = &mut self.station[at.at()];
        here.acked &= !room.alone();
        let buffered = &mut here.buffered[room.at()];
        let carts = std::mem::take(&mut buffered.ack_list);
        buffered.copy &= !carts;
        let initiator = self.held[room.at()].initiator;
        self.lines[line(at, initiator)].push_back(Record::AckList(room, carts));
    }

    /// A register, or an entry: strikes the cart from the copies of what it has, then catches up
    /// with every initiator at once. Where a buffered copy names the cart, its number is where
    /// catch-up stops; else it runs to the expected number.
    #[inline(always)]
    fn register(&mut self, at: StationNo, cart: CartNo) -> (u64, u8) {
        let here = &mut self.station[at.at()];
        let row = &mut self.cart[cart.at()].next;
        let mut stop = here.expected;
        let mut first = [Room(0); STATIONS];
        let mut found = 0_u16;
        for room in rooms_of(here.buffer) {
            let copy = &mut here.buffered[room.at()].copy;
            if *copy & cart.alone() == 0 {
                continue;
            }
            let Held { initiator, number, .. } = self.held[room.at()];
            if number < row[initiator.at()] {
                *copy &= !cart.alone();
            } else if number < stop[initiator.at()] {
                stop[initiator.at()] = number;
                first[initiator.at()] = room;
                found |= 1 << initiator.at();
            }
        }
        let mut p = 0;
        for (next, stop) in row.iter_mut().zip(stop) {
            let passed = stop.saturating_sub(*next);
            *next += passed;
            p += passed as u64;
        }
        here.local |= cart.alone();
        self.cart[cart.at()].place = Place::At(at);
        // In the order of the initiators, since a later putting may move an earlier entry back.
        let mut q = 0;
        for initiator in stations_of(found) {
            q = q.max(self.enqueue(at, first[initiator.at()], cart.alone()));
        }
        (p, q)
    }

    /// Catch-up with one initiator: to the first buffered message whose copy names the cart, for
    /// which it is then queued, or else to the expected number. Answers how far, and the place.
    #[inline(always)]
    fn catch_up(&mut self, at: StationNo, cart: CartNo, initiator: StationNo) -> (u64, u8) {
        let here = &self.station[at.at()];
        let next = self.cart[cart.at()].next[initiator.at()];
        let mut stop = here.expected[initiator.at()];
        if next >= stop {
            return (0, 0);
        }
        let mut found = None;
        for room in rooms_of(here.buffer & self.rooms_by[initiator.at()]) {
            let number = self.held[room.at()].number;
            let named = here.buffered[room.at()].copy & cart.alone() != 0;
            if named && next <= number && number < stop {
                stop = number;
                found = Some(room);
            }
        }
        self.cart[cart.at()].next[initiator.at()] = stop;
        let q = found.map_or(0, |room| self.enqueue(at, room, cart.alone()));
        ((stop - next) as u64, q)
    }

    /// Puts carts in a message's queue entry, and "answers the entry's place, 1 for the head, as it
    /// stands right after the putting".
    #[inline(always)]
    fn enqueue(&mut self, at: StationNo, room: Room, carts: u64) -> u8 {
        let here = &mut self.station[at.at()];
        let queued = &mut here.buffered[room.at()].queued;
        let stood = *queued != 0;
        *queued |= carts;
        if stood {
            here.queue.place(room)
        } else {
            here.queue.insert(room, &self.held)
        }
    }

    /// Puts a record on the line to every station, itself included, and answers how many.
    #[inline(always)]
    fn put_on_all_lines(&mut self, from: StationNo, record: Record) -> u8 {
        let first = line(from, StationNo(0));
        for line in self.lines[first..].iter_mut().take(self.stations as usize) {
            line.push_back(record);
        }
        self.stations
    }
}

#[cfg(test)]
mod tests;
