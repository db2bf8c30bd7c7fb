//! A run as pictures need it: where carts were and how long, which records were on lines and when,
//! and who sent and received what.

use std::collections::VecDeque;

use plain::floor::{CARTS, STATIONS};
use plain::frames::Event;
use plain::view::{Carried, Name};
use plain::{CartNo, Floor, MessageNo, StationNo, Step};

use crate::tell::{in_short, printed, sentence};
use crate::walk::Moment;

/// A frame of the run.
pub struct Row {
    /// What `floor` prints, without a text.
    pub printed: String,
    pub sentence: String,
    /// The same in few words.
    pub short: String,
    pub refused: bool,
}

/// A record's way, from the row in which it was put on its line to the one in which it was handled.
pub struct Arrow {
    pub record: Carried,
    pub from: StationNo,
    pub to: StationNo,
    pub put: usize,
    /// None where it is still on the line.
    pub handled: Option<usize>,
}

/// A cart's time at a station.
pub struct Stay {
    pub cart: CartNo,
    pub station: StationNo,
    pub came: usize,
    /// When it greeted another station; from then on it is leaving this one.
    pub greeted: Option<usize>,
    /// When this station heard of that, or when the cart retired.
    pub left: Option<usize>,
}

/// A message sent, or received by a cart.
pub struct Mark {
    pub row: usize,
    pub station: StationNo,
    /// Who received it; none where it was sent.
    pub receiver: Option<CartNo>,
    /// The receiver's stay at the station.
    pub stay: Option<usize>,
    pub name: Name,
    pub text: Vec<u8>,
}

/// A run.
pub struct Story {
    pub stations: u8,
    pub carts: u8,
    pub rows: Vec<Row>,
    pub arrows: Vec<Arrow>,
    pub stays: Vec<Stay>,
    pub marks: Vec<Mark>,
    /// For each line, the arrows of the records that are on it.
    on_lines: Vec<VecDeque<usize>>,
    /// For each cart, its stay that has not ended.
    now_at: [Option<usize>; CARTS],
}

impl Default for Story {
    fn default() -> Self {
        Self::new()
    }
}

impl Story {
    /// A run without frames.
    pub fn new() -> Self {
        Story {
            stations: 0,
            carts: 0,
            rows: Vec::new(),
            arrows: Vec::new(),
            stays: Vec::new(),
            marks: Vec::new(),
            on_lines: vec![VecDeque::new(); STATIONS * STATIONS],
            now_at: [None; CARTS],
        }
    }

    /// Adds a frame. The floor is the one that the frame left.
    pub fn add(&mut self, moment: &Moment, floor: &Floor) {
        let row = self.rows.len();
        self.rows.push(Row {
            printed: printed(moment),
            sentence: sentence(moment, floor),
            short: in_short(moment),
            refused: moment.answer.is_err(),
        });
        if let Ok(step) = &moment.answer {
            self.add_stay(row, moment);
            self.add_mark(row, moment, step);
            self.add_arrows(row, moment, step, floor);
        }
        (self.stations, self.carts) = (floor.stations(), floor.carts());
    }

    fn add_stay(&mut self, row: usize, moment: &Moment) {
        match (&moment.event, &moment.record) {
            (&Event::Enter { station, cart }, _) => self.arrive(row, station, cart),
            (&Event::Wire { to, .. }, &Some(Carried::Register(cart))) => self.arrive(row, to, cart),
            (Event::Move { cart, .. }, _) => {
                if let Some(stay) = self.now_at[cart.0 as usize] {
                    self.stays[stay].greeted = Some(row);
                }
            }
            (Event::Wire { .. }, Some(Carried::Deregister(cart))) | (Event::Retire { cart }, _) => {
                if let Some(stay) = self.now_at[cart.0 as usize].take() {
                    self.stays[stay].left = Some(row);
                }
            }
            _ => (),
        }
    }

    fn arrive(&mut self, row: usize, station: StationNo, cart: CartNo) {
        self.now_at[cart.0 as usize] = Some(self.stays.len());
        self.stays.push(Stay { cart, station, came: row, greeted: None, left: None });
    }

    fn add_mark(&mut self, row: usize, moment: &Moment, step: &Step) {
        let (station, receiver, text) = match moment.event {
            Event::Send { station, text, .. }
            | Event::GroupSend { station, text, .. }
            | Event::LongSend { station, text, .. } => (station, None, text.to_vec()),
            Event::Radio { station, cart } => (station, Some(cart), moment.text.clone()),
            _ => return,
        };
        let name = Name { initiator: StationNo(step.a as u8), number: MessageNo(step.b) };
        let stay = receiver.and_then(|cart| self.now_at[cart.0 as usize]);
        self.marks.push(Mark { row, station, receiver, stay, name, text });
    }

    /// A wire step takes the first record of its line. What a step puts on lines stands behind what
    /// is there, on lines from one station.
    fn add_arrows(&mut self, row: usize, moment: &Moment, step: &Step, floor: &Floor) {
        let from = match moment.event {
            Event::Wire { from, to } => {
                let handled = self.on_lines[line(from, to)].pop_front();
                handled.into_iter().for_each(|arrow| self.arrows[arrow].handled = Some(row));
                to
            }
            Event::Move { to, .. } => to,
            Event::Send { station, .. }
            | Event::GroupSend { station, .. }
            | Event::LongSend { station, .. }
            | Event::Radio { station, .. } => station,
            _ => return,
        };
        let stations = if step.w > 0 { floor.stations() } else { 0 };
        for to in (0..stations).map(StationNo) {
            let waiting = &mut self.on_lines[line(from, to)];
            for record in floor.records(from, to).skip(waiting.len()) {
                waiting.push_back(self.arrows.len());
                self.arrows.push(Arrow { record, from, to, put: row, handled: None });
            }
        }
    }
}

fn line(from: StationNo, to: StationNo) -> usize {
    from.0 as usize * STATIONS + to.0 as usize
}
