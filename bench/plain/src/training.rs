//! The training bench: one input is fed to a floor and to the plain lists.

use std::io::{self, Read, Write};

use crate::floor::{CartNo, Floor, StationNo, LONG};
use crate::frames::{Event, Reader, Taken};
use crate::lists::{Entry, Lists};
use crate::run::{give, Piece};
use crate::steps::Refusal;

/// "A program feeds both so from one standard input, and prints for each accepted radio step the
/// index and the list head's initiator and number, and nothing else." A frame that cannot be taken
/// apart ends it without a word.
pub fn training(mut input: impl Read, mut output: impl Write) -> io::Result<()> {
    let (mut both, mut piece, mut lines) = (Both::new(), Piece::new(), Vec::new());
    loop {
        let ended = piece.read(&mut input)?;
        let mut reader = Reader::new(piece.octets());
        let refused = both.take_all(&mut reader, &mut lines)?;
        output.write_all(&lines)?;
        lines.clear();
        output.flush()?;
        if ended || refused.is_some_and(|refusal| refusal != Refusal::CutFrame) {
            return Ok(());
        }
        let taken = reader.position();
        piece.drop_front(taken);
    }
}

/// What an accepted radio step handed over, and the head of the list for its initiator and cart.
#[derive(Debug, PartialEq, Eq)]
pub struct Handed {
    pub initiator: StationNo,
    pub cart: CartNo,
    pub by_floor: Entry,
    pub by_lists: Entry,
}

/// A floor and the lists, which are "given exactly the accepted sends (set or members) and radio
/// steps in their order".
pub struct Both {
    floor: Box<Floor>,
    lists: Lists,
    /// The index of the next frame.
    index: u64,
    buffer: [u8; LONG],
}

impl Default for Both {
    fn default() -> Self {
        Self::new()
    }
}

impl Both {
    pub fn new() -> Self {
        let (floor, lists) = (Box::new(Floor::new()), Lists::new());
        Both { floor, lists, index: 0, buffer: [0; LONG] }
    }

    pub fn floor(&self) -> &Floor {
        &self.floor
    }

    pub fn lists(&self) -> &Lists {
        &self.lists
    }

    /// Handles the frames of a piece, to its end or to a frame that is refused.
    fn take_all(
        &mut self,
        reader: &mut Reader,
        lines: &mut impl Write,
    ) -> io::Result<Option<Refusal>> {
        loop {
            match reader.take() {
                Taken::Event(event) => {
                    if let Some(Handed { initiator, by_lists, .. }) = self.give(&event) {
                        writeln!(lines, "{} {} {}", self.index, initiator.0, by_lists.number)?;
                    }
                    self.index += 1;
                }
                Taken::End => return Ok(None),
                Taken::Refused(refusal) => return Ok(Some(refusal)),
            }
        }
    }

    /// Gives an event to the floor and, if it is accepted, its part to the lists; the messages of
    /// both if it was a radio step. None of the lists' refusals occurs here.
    pub fn give(&mut self, event: &Event) -> Option<Handed> {
        let (step, length) = give(&mut self.floor, event, &mut self.buffer).ok()?;
        let fed = match *event {
            Event::Start { stations, carts } => self.lists.start(stations, carts),
            Event::Send { station, set, text } | Event::LongSend { station, set, text } => {
                self.lists.send(station, set, text)
            }
            Event::GroupSend { station, group, text } => {
                self.lists.send(station, self.floor.group(group), text)
            }
            Event::Radio { cart, .. } => {
                let initiator = StationNo(step.a as u8);
                let by_floor = Entry { number: step.b, text: self.buffer[..length].into() };
                let by_lists = self.lists.take(initiator, cart).expect("the list has a head");
                return Some(Handed { initiator, cart, by_floor, by_lists });
            }
            _ => Ok(()),
        };
        fed.expect("the lists refuse nothing that the floor accepts");
        None
    }
}
