//! Refusals in words: the row of the table, what it is about here, and what to do about it.
//!
//! A refusal changes nothing, so the floor that is handed in is the one that refused.

use plain::floor::carts_of;
use plain::frames::Event;
use plain::view::{Carried, Name};
use plain::{CartNo, Floor, Place, Refusal, StationNo};

use crate::words::{agree, capital, carts, correction, corrections, counted, numbers, place};

/// The row of the table of refusals, in few words.
pub fn row(refusal: Refusal) -> &'static str {
    match refusal {
        Refusal::CutFrame => "the frame is cut short",
        Refusal::UnknownKind => "no such kind of event",
        Refusal::StrayField => "a field that the kind does not have",
        Refusal::LongText => "a text of this length is not allowed",
        Refusal::NotStarted => "not started",
        Refusal::AlreadyStarted => "already started",
        Refusal::FloorSize => "too many stations or carts",
        Refusal::NoSuchStation => "no such station",
        Refusal::NoSuchCart => "no such cart",
        Refusal::AlreadyEntered => "the cart is now entered",
        Refusal::EmptySet => "no cart is named",
        Refusal::NamedNotEntered => "a named cart is not now entered",
        Refusal::NumbersUsedUp => "the last number is used",
        Refusal::NoRoom => "as many corrections are held as can be",
        Refusal::LineEmpty => "the line is empty",
        Refusal::NotAtStation => "the cart is not at this station",
        Refusal::NotAtHead => "the queue's head is not for it",
        Refusal::NotEntered => "the cart is not now entered",
        Refusal::InHandOff => "the cart is leaving or travelling",
        Refusal::AlreadyThere => "already there",
        Refusal::ShortBuffer => "the buffer is shorter than the text",
        Refusal::EmptyText => "the text is empty",
        Refusal::NotSteady => "the cart is not steady",
        Refusal::NoSuchGroup => "the group is not defined",
        Refusal::StoreFull => "no room for a long text",
        Refusal::NotHeld => "the correction is not held",
        Refusal::StillNamed => "a held correction names the cart",
        Refusal::ListsFull => "the lists are full",
        Refusal::ListEmpty => "the list is empty",
    }
}

/// What the event asked for: the stations and the carts that it names.
struct Asked {
    stations: Vec<StationNo>,
    carts: u64,
    /// Of a send, the octets of its text.
    length: usize,
}

impl Asked {
    fn of(event: &Event) -> Asked {
        let (stations, carts, length) = match *event {
            Event::Start { .. } => (vec![], 0, 0),
            Event::Enter { station, cart } | Event::Radio { station, cart } => {
                (vec![station], cart.alone(), 0)
            }
            Event::Send { station, set, text } | Event::LongSend { station, set, text } => {
                (vec![station], set, text.len())
            }
            Event::Wire { from, to } => (vec![from, to], 0, 0),
            Event::Move { cart, to } => (vec![to], cart.alone(), 0),
            Event::Steady { cart, .. } | Event::Retire { cart } => (vec![], cart.alone(), 0),
            Event::Group { set, .. } => (vec![], set, 0),
            Event::GroupSend { station, text, .. } => (vec![station], 0, text.len()),
        };
        Asked { stations, carts, length }
    }

    /// The cart of an event that names one.
    fn cart(&self) -> CartNo {
        carts_of(self.carts).next().unwrap_or(CartNo(0))
    }

    /// The station of an event, of a wire step the one that its line begins at.
    fn station(&self) -> StationNo {
        self.stations.first().copied().unwrap_or(StationNo(0))
    }
}

/// The whole sentence: "Refused (15, the line is empty): ...".
pub fn sentence(event: &Event, refusal: Refusal, floor: &Floor) -> String {
    let asked = Asked::of(event);
    let (why, advice) = match event {
        Event::Radio { .. } => radio(refusal, &asked, floor),
        Event::Send { .. } | Event::GroupSend { .. } | Event::LongSend { .. } => {
            send(event, refusal, &asked, floor)
        }
        Event::Retire { .. } => retirement(refusal, asked.cart(), floor),
        _ => None,
    }
    .or_else(|| of_cart(refusal, &asked, floor))
    .unwrap_or_else(|| of_floor(event, refusal, &asked, floor));
    format!("Refused ({}, {}): {why}. {advice}.", refusal.number(), row(refusal))
}

type Said = (String, String);

/// A radio step that is refused for where the cart is or for what the queue has.
fn radio(refusal: Refusal, asked: &Asked, floor: &Floor) -> Option<Said> {
    let (cart, station) = (asked.cart(), asked.station());
    let name = format!("cart {}", cart.0);
    Some(match refusal {
        Refusal::NotAtStation => {
            (format!("{name} {}", place(floor.place(cart))), not_here(cart, floor))
        }
        Refusal::NotSteady => (
            format!("the vacuum of {name} has not settled"),
            "Report the cart steady when it has, and hand over then".into(),
        ),
        Refusal::NotAtHead => match floor.queue(station).next() {
            None => (
                format!("nobody waits at station {}", station.0),
                "What is still on its way to the cart comes by wire steps".into(),
            ),
            Some((head, waiting)) => (
                format!("first comes {}, for {}", correction(head), carts(waiting)),
                serve_first(station, waiting, floor),
            ),
        },
        _ => return None,
    })
}

/// How the head of a queue can be served, for those behind it.
fn serve_first(station: StationNo, waiting: u64, floor: &Floor) -> String {
    let at_station = |cart: &CartNo| floor.place(*cart) == Place::At(station);
    let ready = carts_of(waiting & !floor.unsteady()).filter(at_station);
    let ready = ready.fold(0, |set, cart| set | cart.alone());
    if ready != 0 {
        return format!("Hand it to {} first", carts(ready));
    }
    match carts_of(waiting).find(|cart| !at_station(cart)) {
        Some(cart) => {
            format!("Finish the hand-off of cart {} first ({})", cart.0, hand_off(cart, floor))
        }
        None => {
            let are = agree(waiting, "is", "are");
            format!("{} {are} not steady: wait for that, or move it away", capital(&carts(waiting)))
        }
    }
}

fn not_here(cart: CartNo, floor: &Floor) -> String {
    match floor.place(cart) {
        Place::At(station) => format!("Call it at station {}", station.0),
        Place::Outside => "Let it enter first".into(),
        _ => format!(
            "Finish its hand-off ({}), then call it at its new station",
            hand_off(cart, floor)
        ),
    }
}

/// The wire steps of a cart's hand-off: those that bring its deregister to the old station, if it is
/// on its way there, and those that bring its register to the new one.
fn hand_off(cart: CartNo, floor: &Floor) -> String {
    if let Some((new, old)) = line_of(Carried::Deregister(cart), floor) {
        return format!(
            "wire {0} to {1} until it is handed over, then wire {1} to {0} until it arrives",
            new.0, old.0
        );
    }
    match line_of(Carried::Register(cart), floor) {
        Some((old, new)) => format!("wire {} to {} until it arrives", old.0, new.0),
        None => "no line has it".into(),
    }
}

/// The line that has a record.
fn line_of(record: Carried, floor: &Floor) -> Option<(StationNo, StationNo)> {
    let stations = || (0..floor.stations()).map(StationNo);
    let mut lines = stations().flat_map(|from| stations().map(move |to| (from, to)));
    lines.find(|(from, to)| floor.records(*from, *to).any(|other| other == record))
}

/// A send that is refused for its set, its text, its number or for want of room.
fn send(event: &Event, refusal: Refusal, asked: &Asked, floor: &Floor) -> Option<Said> {
    let held = floor.held();
    Some(match (refusal, event) {
        (Refusal::EmptySet, _) => {
            ("it is for nobody".into(), "Name the carts that the correction is for".into())
        }
        (Refusal::NoSuchGroup, Event::GroupSend { group, .. }) => (
            format!("group {} has no members", group.0),
            "Define the group first, or name the carts".into(),
        ),
        (Refusal::EmptyText, _) => (
            "there is nothing to correct".into(),
            "Fill in the correction and send it again".into(),
        ),
        (Refusal::NumbersUsedUp, _) => (
            format!("station {} has used {}", asked.station().0, floor.limits().last_number),
            "Send it from another station".into(),
        ),
        (Refusal::NoRoom, _) => (
            format!("{} are held", counted(held as u64, "correction")),
            "Let carts receive and lines run until one is deleted, then send again".into(),
        ),
        (Refusal::StoreFull, _) => (
            format!("it has {} octets, {} are free", asked.length, floor.free_octets()),
            "Wait until a long correction is deleted, then send again".into(),
        ),
        _ => return None,
    })
}

/// What is refused for the state of its carts.
fn of_cart(refusal: Refusal, asked: &Asked, floor: &Floor) -> Option<Said> {
    let cart = asked.cart();
    let is = || format!("cart {} {}", cart.0, place(floor.place(cart)));
    Some(match refusal {
        Refusal::AlreadyEntered => match floor.place(cart) {
            Place::At(_) => (is(), "Move it, if it should be elsewhere".into()),
            _ => (is(), format!("Finish its hand-off ({})", hand_off(cart, floor))),
        },
        Refusal::NamedNotEntered => {
            let missing = asked.carts & !floor.entered();
            let why =
                format!("{} {} not on the floor", carts(missing), agree(missing, "is", "are"));
            (why, format!("Let {0} enter first, or leave {0} out", agree(missing, "it", "them")))
        }
        Refusal::NotEntered => (is(), "Let it enter first".into()),
        Refusal::InHandOff => {
            (is(), format!("Finish its hand-off first ({})", hand_off(cart, floor)))
        }
        Refusal::AlreadyThere => (is(), "Nothing needs to be done".into()),
        _ => return None,
    })
}

/// A retirement, as docs/SERVICE.md has it.
fn retirement(refusal: Refusal, cart: CartNo, floor: &Floor) -> Option<Said> {
    match refusal {
        Refusal::NotEntered => Some((
            format!("cart {} {}", cart.0, place(floor.place(cart))),
            "Nothing needs to be done, its number is free".into(),
        )),
        Refusal::StillNamed => Some(still_named(cart, floor)),
        _ => None,
    }
}

/// A cart that may not retire yet: who has yet to receive what names it, or that only deletes have
/// yet to be handled.
fn still_named(cart: CartNo, floor: &Floor) -> Said {
    let naming = || floor.held_messages().filter(|held| held.set & cart.alone() != 0);
    let mut names: Vec<Name> = naming().map(|held| held.name).collect();
    names.sort_by_key(|name| (name.initiator.0, name.number));
    let why = format!("cart {} is named by {}", cart.0, corrections(&names));
    let waiting = naming().fold(0, |set, held| set | floor.missing(&held));
    if waiting == 0 {
        return (why, "All named carts have received: run the lines to the last delete".into());
    }
    let unsteady = waiting & floor.unsteady();
    let steady = match unsteady {
        0 => String::new(),
        _ => {
            let are = agree(unsteady, "it is", "they are");
            format!("tell {} steady when {are}, ", carts(unsteady))
        }
    };
    let advice = format!(
        "{} {} yet to receive: {steady}let {} receive, then run the lines to the last delete",
        capital(&carts(waiting)),
        agree(waiting, "has", "have"),
        agree(waiting, "it", "them")
    );
    (why, advice)
}

/// What is refused for numbers that are not on the floor, or for its state.
fn of_floor(event: &Event, refusal: Refusal, asked: &Asked, floor: &Floor) -> Said {
    let (stations, carts) = (floor.stations(), floor.carts());
    match (refusal, event) {
        (Refusal::NotStarted, _) => {
            ("no floor is started".into(), "Begin the run with a start".into())
        }
        (Refusal::AlreadyStarted, _) => {
            let size = (counted(stations.into(), "station"), counted(carts.into(), "cart"));
            let why = format!("this floor has {} and {}", size.0, size.1);
            (why, "Go on with it; another floor is another run".into())
        }
        (Refusal::FloorSize, _) => {
            let most = floor.limits();
            let most = format!("{} stations and {} carts", most.stations, most.carts);
            (format!("there are at most {most}"), "Start with as many at most".into())
        }
        (Refusal::NoSuchStation, _) => {
            let beyond = asked.stations.iter().find(|station| station.0 >= stations);
            let beyond = beyond.map_or(0, |station| station.0);
            let why = format!("there is no station {beyond}, {}", only(stations));
            (why, "Correct the station's number".into())
        }
        (Refusal::NoSuchCart, _) => {
            let beyond = carts_of(asked.carts).filter(|cart| cart.0 >= carts);
            let beyond = beyond.fold(0, |set, cart| set | cart.alone());
            let why = format!("there is no cart {}, {}", numbers(beyond), only(carts));
            (why, "Correct the cart's number".into())
        }
        (Refusal::LineEmpty, Event::Wire { from, to }) => {
            let why = format!("nothing is on its way from station {} to station {}", from.0, to.0);
            (why, "Nothing needs to be done".into())
        }
        _ => ("it cannot be done now".into(), "See the table of refusals".into()),
    }
}

/// Which numbers there are.
fn only(count: u8) -> String {
    match count {
        1 => "only 0".into(),
        2 => "only 0 and 1".into(),
        _ => format!("only 0 to {}", count - 1),
    }
}
