//! The store of long texts: "long texts lie in one store of 4,096 octets".

use crate::floor::{Room, HELD, STORE};

/// Where a text lies.
#[derive(Clone, Copy, Debug, Default, PartialEq, Eq)]
struct Part {
    start: usize,
    /// 0 where the room has no long text.
    length: usize,
}

impl Part {
    fn end(self) -> usize {
        self.start + self.length
    }
}

/// The octets of all long texts, and which of them are each room's.
#[derive(Clone)]
pub(crate) struct Store {
    octets: Box<[u8]>,
    parts: [Part; HELD],
}

impl Store {
    pub(crate) fn new() -> Self {
        Store { octets: vec![0; STORE].into_boxed_slice(), parts: [Part::default(); HELD] }
    }

    /// The long text of a room; empty if it has none.
    pub(crate) fn text(&self, room: Room) -> &[u8] {
        let part = self.parts[room.at()];
        &self.octets[part.start..part.end()]
    }

    /// All octets, and where among them the text of a room begins.
    pub(crate) fn octets(&self) -> &[u8] {
        &self.octets
    }

    pub(crate) fn start(&self, room: Room) -> usize {
        self.parts[room.at()].start
    }

    /// The text of a room lies from an octet on.
    pub(crate) fn lay(&mut self, room: Room, start: usize, text: &[u8]) {
        self.octets[start..start + text.len()].copy_from_slice(text);
        self.parts[room.at()] = Part { start, length: text.len() };
    }

    /// The free octets, "counted together".
    pub(crate) fn free(&self) -> usize {
        STORE - self.parts.iter().map(|part| part.length).sum::<usize>()
    }

    /// Puts the text of a room behind the last one. There must be as many free octets; where they
    /// "suffice but lie apart", the texts are moved together first.
    pub(crate) fn put(&mut self, room: Room, text: &[u8]) {
        let mut end = self.parts.iter().filter(|part| part.length > 0).map(|part| part.end()).max();
        if end.unwrap_or(0) + text.len() > STORE {
            end = Some(self.move_together());
        }
        let part = Part { start: end.unwrap_or(0), length: text.len() };
        self.octets[part.start..part.end()].copy_from_slice(text);
        self.parts[room.at()] = part;
    }

    /// "A deleted message's octets are free again."
    pub(crate) fn clear(&mut self, room: Room) {
        self.parts[room.at()] = Part::default();
    }

    /// Moves every text to the end of the one before it, the lowest first, so that none is written
    /// over that has not been moved; answers where the last one ends.
    fn move_together(&mut self) -> usize {
        let mut rooms: Vec<usize> = (0..HELD).filter(|m| self.parts[*m].length > 0).collect();
        rooms.sort_by_key(|m| self.parts[*m].start);
        let mut end = 0;
        for m in rooms {
            let part = &mut self.parts[m];
            self.octets.copy_within(part.start..part.end(), end);
            part.start = end;
            end = part.end();
        }
        end
    }
}

#[cfg(test)]
mod tests {
    use super::*;

    fn text(length: usize, first: u8) -> Vec<u8> {
        (0..length).map(|at| first.wrapping_add(at as u8)).collect()
    }

    #[test]
    fn texts_that_lie_apart_are_moved_together() {
        let mut store = Store::new();
        assert_eq!(store.free(), 4_096);
        for room in 0..8 {
            store.put(Room(room), &text(512, room));
        }
        assert_eq!(store.free(), 0);
        for room in [1, 4, 6] {
            store.clear(Room(room));
            assert!(store.text(Room(room)).is_empty());
        }
        // None of the three holes takes these.
        for (room, length) in [(20, 500), (21, 500), (22, 500), (23, 36)] {
            store.put(Room(room), &text(length, room));
            assert_eq!(store.text(Room(room)), text(length, room));
        }
        assert_eq!(store.free(), 0);
        for room in [0, 2, 3, 5, 7] {
            assert_eq!(store.text(Room(room)), text(512, room), "room {room}");
        }
    }

    #[test]
    fn any_order_of_puts_and_clears() {
        let (mut store, mut state) = (Store::new(), 0x9E37_79B9_7F4A_7C15_u64);
        let mut below = |n: u64| {
            state ^= state << 13;
            state ^= state >> 7;
            state ^= state << 17;
            ((state >> 11) % n) as usize
        };
        let mut texts: [Vec<u8>; HELD] = Default::default();
        for turn in 0..20_000 {
            let room = Room(below(HELD as u64) as u8);
            let length = 33 + below(480);
            if !texts[room.at()].is_empty() {
                store.clear(room);
                texts[room.at()].clear();
            } else if length <= store.free() {
                texts[room.at()] = text(length, turn as u8);
                store.put(room, &texts[room.at()]);
            }
            for m in 0..HELD {
                assert_eq!(store.text(Room(m as u8)), texts[m]);
            }
        }
    }
}
