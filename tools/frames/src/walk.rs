//! A run, frame by frame: what a floor answers to each, and the floor as it then is.

use std::fmt;

use plain::floor::{GROUPS, LONG};
use plain::frames::{Event, Reader, Taken, FRAME};
use plain::run::give;
use plain::view::Carried;
use plain::{Floor, GroupNo, Limits, Refusal, Step};

/// A frame of a run and what came of it.
#[derive(Clone, Debug)]
pub struct Moment<'a> {
    /// The frame's index, as `floor` prints it.
    pub index: usize,
    pub event: Event<'a>,
    pub answer: Result<Step, Refusal>,
    /// The record that a wire step handled; none for all other events.
    pub record: Option<Carried>,
    /// The groups of which a cart that retired was the last member; none for all other events.
    pub emptied: Vec<GroupNo>,
    /// The text that a radio step handed over; empty for all other events.
    pub text: Vec<u8>,
}

/// Takes the frames of a stream one by one and gives them to a floor.
pub struct Walk<'a> {
    octets: &'a [u8],
    reader: Reader<'a>,
    floor: Box<Floor>,
    index: usize,
}

impl<'a> Walk<'a> {
    pub fn new(octets: &'a [u8], limits: Limits) -> Self {
        let floor = Box::new(Floor::within(limits));
        Walk { octets, reader: Reader::new(octets), floor, index: 0 }
    }

    /// The floor as the last frame left it.
    pub fn floor(&self) -> &Floor {
        &self.floor
    }

    /// Octets taken so far.
    pub fn position(&self) -> usize {
        self.reader.position()
    }

    /// The next frame and what came of it; none at the end of the stream.
    pub fn step(&mut self) -> Result<Option<Moment<'a>>, BadFrame> {
        let event = match self.reader.take() {
            Taken::Event(event) => event,
            Taken::End => return Ok(None),
            Taken::Refused(refusal) => return Err(self.bad_frame(refusal)),
        };
        let (record, emptied) = self.before(&event);
        let mut buffer = [0; LONG];
        let answer = give(&mut self.floor, &event, &mut buffer);
        let length = answer.as_ref().map_or(0, |(_, length)| *length);
        let moment = Moment {
            index: self.index,
            event,
            record: record.filter(|_| answer.is_ok()),
            emptied: if answer.is_ok() { emptied } else { Vec::new() },
            answer: answer.map(|(step, _)| step),
            text: buffer[..length].to_vec(),
        };
        self.index += 1;
        Ok(Some(moment))
    }

    /// What an event will take away, if it is accepted: a record from its line, groups of which a
    /// cart is the last member. Afterwards the floor does not have it any more.
    fn before(&self, event: &Event) -> (Option<Carried>, Vec<GroupNo>) {
        match *event {
            Event::Wire { from, to } => (self.floor.records(from, to).next(), Vec::new()),
            Event::Retire { cart } => {
                let groups = (0..GROUPS as u8).map(GroupNo);
                (None, groups.filter(|group| self.floor.group(*group) == cart.alone()).collect())
            }
            _ => (None, Vec::new()),
        }
    }

    fn bad_frame(&self, refusal: Refusal) -> BadFrame {
        let octet = self.reader.position();
        let rest = &self.octets[octet..];
        BadFrame { index: self.index, octet, kind: rest[0] >> 4, left: rest.len(), refusal }
    }
}

/// Octets that are no frame. They end a run, since nobody knows where the next frame begins.
#[derive(Clone, Debug, PartialEq, Eq)]
pub struct BadFrame {
    /// The index that the frame would have.
    pub index: usize,
    /// Where it begins, counted from 0.
    pub octet: usize,
    pub kind: u8,
    /// Octets from there to the end.
    pub left: usize,
    pub refusal: Refusal,
}

impl fmt::Display for BadFrame {
    fn fmt(&self, f: &mut fmt::Formatter) -> fmt::Result {
        let BadFrame { index, octet, kind, left, refusal } = *self;
        write!(f, "octet {octet}, frame {index}: ")?;
        match refusal {
            Refusal::CutFrame if left < FRAME => {
                write!(f, "cut short, {left} of {FRAME} octets are there")?;
            }
            Refusal::CutFrame => write!(f, "cut short within its text")?,
            Refusal::UnknownKind => write!(f, "there is no kind {kind} of events")?,
            Refusal::StrayField => write!(f, "a field that kind {kind} does not have is not 0")?,
            _ => write!(f, "kind {kind} has no texts of this length")?,
        }
        write!(f, " (refusal {}).", refusal.number())?;
        match refusal {
            Refusal::CutFrame => write!(f, " Save the frames again to the end")?,
            _ => write!(f, " The file is damaged here, or it is no file of frames")?,
        }
        match index {
            0 => write!(f, "."),
            _ => write!(f, "; its first {octet} octets are whole frames (head -c {octet})."),
        }
    }
}

#[cfg(test)]
mod tests {
    use super::*;
    use crate::script::script;

    fn said(text: &str) -> String {
        let octets = script(text).unwrap();
        let mut walk = Walk::new(&octets, Limits::FLOOR);
        loop {
            match walk.step() {
                Ok(moment) => assert!(moment.is_some(), "the stream has no bad frame"),
                Err(bad) => return bad.to_string(),
            }
        }
    }

    #[test]
    fn bad_frames_are_named_by_their_octet() {
        assert_eq!(
            said("start 2 1\nenter 0 0\noctets 0102"),
            "octet 32, frame 2: cut short, 2 of 16 octets are there (refusal 1). \
             Save the frames again to the end; its first 32 octets are whole frames (head -c 32)."
        );
        assert_eq!(
            said("octets F0000000000000000000000000000000"),
            "octet 0, frame 0: there is no kind 15 of events (refusal 2). \
             The file is damaged here, or it is no file of frames."
        );
        let cut = said("octets 20000200000000000000000000000001FF");
        assert!(cut.contains("cut short within its text (refusal 1)"), "{cut}");
        let stray = said("octets 10000000000000000000000000000001");
        assert!(stray.contains("a field that kind 1 does not have is not 0"), "{stray}");
        let long = said("octets 20002100000000000000000000000001");
        assert!(long.contains("kind 2 has no texts of this length (refusal 4)"), "{long}");
    }

    #[test]
    fn a_refused_event_leaves_the_floor_and_the_walk_goes_on() {
        let octets = script("start 1 1\nradio 0 0\nenter 0 0\n").unwrap();
        let mut walk = Walk::new(&octets, Limits::FLOOR);
        let answers: Vec<_> = std::iter::from_fn(|| walk.step().unwrap())
            .map(|moment| (moment.index, moment.answer.map(drop)))
            .collect();
        assert_eq!(answers, [(0, Ok(())), (1, Err(Refusal::NotAtStation)), (2, Ok(()))]);
        assert_eq!((walk.floor().entered(), walk.position()), (1, 48));
    }
}
