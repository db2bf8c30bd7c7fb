//! A floor read from outside, for programs that show one. No event is among these.

use crate::floor::{carts_of, line, rooms_of, CartNo, Floor, MessageNo, Record, Room, StationNo};

/// What a message is named by.
#[derive(Clone, Copy, Debug, PartialEq, Eq)]
pub struct Name {
    pub initiator: StationNo,
    pub number: MessageNo,
}

/// A record on a line.
#[derive(Clone, Copy, Debug, PartialEq, Eq)]
pub enum Carried {
    Multicast(Name),
    /// With the carts of the list.
    AckList(Name, u64),
    Delete(Name),
    Deregister(CartNo),
    Register(CartNo),
}

/// A held message, as its initiator knows it.
#[derive(Clone, Copy, Debug, PartialEq, Eq)]
pub struct HeldMessage<'a> {
    pub name: Name,
    /// The set as sent.
    pub set: u64,
    /// Carts that the initiator knows to have it.
    pub acknowledged: u64,
    pub text: &'a [u8],
}

impl Floor {
    fn name(&self, room: Room) -> Name {
        let held = &self.held[room.at()];
        Name { initiator: held.initiator, number: MessageNo(held.number) }
    }

    /// The records on a line, the next to be handled first.
    pub fn records(
        &self,
        from: StationNo,
        to: StationNo,
    ) -> impl DoubleEndedIterator<Item = Carried> + '_ {
        self.lines[line(from, to)].iter().map(|record| match *record {
            Record::Multicast(room) => Carried::Multicast(self.name(room)),
            Record::AckList(room, carts) => Carried::AckList(self.name(room), carts),
            Record::Delete(room) => Carried::Delete(self.name(room)),
            Record::Deregister(cart) => Carried::Deregister(cart),
            Record::Register(cart) => Carried::Register(cart),
        })
    }

    /// The entries of a station's queue, the head first: the message, and the carts that wait.
    pub fn queue(&self, station: StationNo) -> impl Iterator<Item = (Name, u64)> + '_ {
        let here = &self.station[station.at()];
        let entries = here.queue.entries().iter();
        entries.map(|room| (self.name(*room), here.buffered[room.at()].queued))
    }

    /// The messages that are held.
    pub fn held_messages(&self) -> impl Iterator<Item = HeldMessage<'_>> + '_ {
        rooms_of(self.rooms).map(|room| {
            let held = &self.held[room.at()];
            HeldMessage {
                name: self.name(room),
                set: held.set,
                acknowledged: held.acknowledged,
                text: self.text_in(room),
            }
        })
    }

    /// The named carts that have yet to receive a held message.
    pub fn missing(&self, held: &HeldMessage) -> u64 {
        let Name { initiator, number } = held.name;
        carts_of(held.set)
            .filter(|cart| self.next(*cart, initiator) <= number.0)
            .fold(0, |set, cart| set | cart.alone())
    }

    /// The messages that a station has in its buffer, and the carts of each one's ack list here.
    pub fn buffered(&self, station: StationNo) -> impl Iterator<Item = (Name, u64)> + '_ {
        let here = &self.station[station.at()];
        rooms_of(here.buffer).map(|room| (self.name(room), here.buffered[room.at()].ack_list))
    }
}

#[cfg(test)]
mod tests {
    use super::*;

    fn name(initiator: u8, number: u32) -> Name {
        Name { initiator: StationNo(initiator), number: MessageNo(number) }
    }

    #[test]
    fn a_floor_is_read_as_the_events_left_it() {
        let (one, two) = (StationNo(0), StationNo(1));
        let mut floor = Box::new(Floor::new());
        floor.start(2, 2).unwrap();
        floor.enter(one, CartNo(0)).unwrap();
        floor.enter(one, CartNo(1)).unwrap();
        floor.send(two, 3, &[0xA1]).unwrap();
        floor.send(one, 2, &[7; 3]).unwrap();
        floor.wire(two, one).unwrap();
        floor.wire(one, one).unwrap();
        // Number 0 of both: the higher initiator stands first.
        let queue: Vec<_> = floor.queue(one).collect();
        assert_eq!(queue, [(name(1, 0), 3), (name(0, 0), 2)]);
        floor.radio(one, CartNo(0), &mut [0; 1]).unwrap();
        let missing: Vec<_> = floor.held_messages().map(|held| floor.missing(&held)).collect();
        assert_eq!(missing, [2, 2]);
        let buffered: Vec<_> = floor.buffered(one).collect();
        assert_eq!(buffered, [(name(1, 0), 1), (name(0, 0), 0)]);
        floor.radio(one, CartNo(1), &mut [0; 1]).unwrap();
        floor.move_cart(CartNo(0), two).unwrap();
        let lines: Vec<_> = floor.records(one, two).collect();
        let list = Carried::AckList(name(1, 0), 3);
        assert_eq!(lines, [Carried::Multicast(name(0, 0)), list]);
        let hand_off: Vec<_> = floor.records(two, one).collect();
        assert_eq!(hand_off, [Carried::Deregister(CartNo(0))]);
        floor.wire(one, two).unwrap();
        floor.wire(two, two).unwrap();
        floor.wire(one, two).unwrap();
        let held: Vec<_> = floor.held_messages().collect();
        assert_eq!((held[0].name, held[0].set, held[0].acknowledged), (name(1, 0), 3, 3));
        assert_eq!((held[0].text, held[1].text), (&[0xA1][..], &[7; 3][..]));
        assert_eq!(floor.records(two, two).next(), Some(Carried::Delete(name(1, 0))));
        floor.wire(two, one).unwrap();
        assert_eq!(floor.records(one, two).next(), Some(Carried::Register(CartNo(0))));
    }
}
