//! Runs that random streams do not find: the most records that lines can have, a floor with every
//! room taken, a cart that comes late.

use plain::floor::{carts_of, HELD};
use plain::frames::{put, Event};
use plain::{CartNo, Floor, Place, Refusal, StationNo, Step};

use crate::generate::give;

/// The runs that have a name, and what they are for.
pub const CASES: [(&str, &str); 4] = [
    ("most_records_3x2", "the most records that a run has on lines, three stations and two carts"),
    ("most_records_16x64", "the same on the full floor: 2,592"),
    ("held_and_drained", "32 held, a send is refused with 14, then none held; twice"),
    ("late_66000", "a cart that enters after 66,000 numbers, more than 16 bits count"),
];

/// The frames of a run that has a name.
pub fn case(name: &str) -> Option<Vec<u8>> {
    Some(match name {
        "most_records_3x2" => most_records(3, 2),
        "most_records_16x64" => most_records(16, 64),
        "held_and_drained" => held_and_drained(),
        "late_66000" => late(66_000),
        _ => return None,
    })
}

/// A floor that runs beside the frames.
struct Beside {
    floor: Box<Floor>,
    octets: Vec<u8>,
}

impl Beside {
    fn new(stations: u8, carts: u8) -> Self {
        let mut beside = Beside { floor: Box::new(Floor::new()), octets: Vec::new() };
        beside.accepted(Event::Start { stations, carts });
        beside
    }

    fn event(&mut self, event: Event) -> Result<Step, Refusal> {
        put(&event, &mut self.octets);
        give(&mut self.floor, &event)
    }

    fn accepted(&mut self, event: Event) -> Step {
        self.event(event).unwrap_or_else(|refusal| panic!("{event:?} is refused: {refusal:?}"))
    }

    fn wire(&mut self, from: u8, to: u8) {
        self.accepted(Event::Wire { from: StationNo(from), to: StationNo(to) });
    }

    fn on_lines(&self) -> usize {
        let stations = self.floor.stations();
        let lines = (0..stations).flat_map(|from| (0..stations).map(move |to| (from, to)));
        lines.map(|(from, to)| self.floor.on_line(StationNo(from), StationNo(to))).sum()
    }

    /// Every record of every line, and every message to the carts that wait for it, until there is
    /// nothing more.
    fn drain(&mut self) {
        let stations = self.floor.stations();
        loop {
            let before = self.octets.len();
            for (from, to) in (0..stations).flat_map(|from| (0..stations).map(move |to| (from, to)))
            {
                while self.floor.on_line(StationNo(from), StationNo(to)) > 0 {
                    self.wire(from, to);
                }
            }
            for station in (0..stations).map(StationNo) {
                while let Some(queued) = self.floor.head(station) {
                    let cart = carts_of(queued)
                        .find(|cart| self.floor.place(*cart) == Place::At(station))
                        .expect("on empty lines every queued cart is at its station");
                    self.accepted(Event::Radio { station, cart });
                }
            }
            if self.octets.len() == before {
                return;
            }
        }
    }
}

/// Station 0 sends 32 messages to all carts, which are at station 2. Station 1 alone handles the
/// multicasts. The carts roll there one by one, so each has every message to itself and each receipt
/// is an ack list of its own; station 0 handles none of them. Then every cart moves on. The lines
/// then have 32 multicasts for each other station, 32 ack lists and a deregister for each cart.
fn most_records(stations: u8, carts: u8) -> Vec<u8> {
    let mut beside = Beside::new(stations, carts);
    let all = (0..carts).fold(0, |set, cart| set | CartNo(cart).alone());
    for cart in (0..carts).map(CartNo) {
        beside.accepted(Event::Enter { station: StationNo(2), cart });
    }
    for number in 0..HELD as u8 {
        let text = vec![number; number as usize + 1];
        beside.accepted(Event::Send { station: StationNo(0), set: all, text: &text });
        beside.wire(0, 1);
    }
    for cart in (0..carts).map(CartNo) {
        beside.accepted(Event::Move { cart, to: StationNo(1) });
        beside.wire(1, 2);
        beside.wire(2, 1);
        for _ in 0..HELD {
            beside.accepted(Event::Radio { station: StationNo(1), cart });
        }
    }
    for cart in (0..carts).map(CartNo) {
        beside.accepted(Event::Move { cart, to: StationNo(2 + cart.0 % (stations - 2)) });
    }
    let most = HELD * (stations as usize - 1 + carts as usize) + carts as usize;
    assert_eq!(beside.on_lines(), most);
    beside.drain();
    assert_eq!((beside.on_lines(), beside.floor.held()), (0, 0));
    beside.octets
}

/// Two stations and three carts: every room is taken, the next send of each station is refused, all
/// is handed over, and the rooms are taken once more.
fn held_and_drained() -> Vec<u8> {
    let mut beside = Beside::new(2, 3);
    for (cart, station) in [(0, 0), (1, 1), (2, 0)] {
        beside.accepted(Event::Enter { station: StationNo(station), cart: CartNo(cart) });
    }
    for round in 0..2 {
        for message in 0..HELD as u8 {
            let station = StationNo(message % 2);
            let (set, text) = (1 + message as u64 % 7, [round, message]);
            beside.accepted(Event::Send { station, set, text: &text });
        }
        for station in [StationNo(0), StationNo(1)] {
            let refused = beside.event(Event::Send { station, set: 1, text: &[round] });
            assert_eq!(refused.map_err(Refusal::number), Err(14));
        }
        beside.drain();
        assert_eq!(beside.floor.held(), 0);
    }
    beside.octets
}

/// One station sends message after message to cart 0, each handed over and deleted before the next.
/// Then cart 1 enters, and every number is passed over for it.
fn late(numbers: u32) -> Vec<u8> {
    let mut beside = Beside::new(1, 2);
    let (station, cart) = (StationNo(0), CartNo(0));
    beside.accepted(Event::Enter { station, cart });
    for _ in 0..numbers {
        beside.accepted(Event::Send { station, set: cart.alone(), text: &[0x0A] });
        beside.wire(0, 0);
        beside.accepted(Event::Radio { station, cart });
        beside.wire(0, 0);
        beside.wire(0, 0);
        assert_eq!(beside.floor.held(), 0);
    }
    let entered = beside.accepted(Event::Enter { station, cart: CartNo(1) });
    assert_eq!(entered.p, numbers.into());
    beside.octets
}
