//! A run as sentences: each event and what came of it, beside the numbers that `floor` prints.

use std::fmt::{self, Write};

use plain::frames::{self, Event};
use plain::view::{Carried, Name};
use plain::{CartNo, Floor, GroupNo, Limits, MessageNo, Place, StationNo, Step};

use crate::refused;
use crate::walk::{BadFrame, Moment, Walk};
use crate::words::{agree, brief, capital, carts, correction, counted, listed, short, text};

/// The lines of a run.
pub struct Told {
    /// What `floor` prints, without a text, and the sentence.
    lines: Vec<(String, String)>,
}

/// Tells a run.
pub fn tell(octets: &[u8], limits: Limits) -> Result<Told, BadFrame> {
    let mut walk = Walk::new(octets, limits);
    let mut lines = Vec::new();
    while let Some(moment) = walk.step()? {
        lines.push((printed(&moment), sentence(&moment, walk.floor())));
    }
    Ok(Told { lines })
}

impl fmt::Display for Told {
    fn fmt(&self, f: &mut fmt::Formatter) -> fmt::Result {
        let width = self.lines.iter().map(|(printed, _)| printed.len()).max().unwrap_or(0);
        self.lines
            .iter()
            .try_for_each(|(printed, sentence)| writeln!(f, "{printed:width$}  {sentence}"))
    }
}

/// The numbers of a frame, as `floor` prints them. The text of a radio step is in its sentence.
pub fn printed(moment: &Moment) -> String {
    let index = moment.index;
    match &moment.answer {
        Ok(Step { a, b, p, w, q }) => {
            format!("{index} {} {a} {b} {p} {w} {q}", kind(&moment.event))
        }
        Err(refusal) => format!("{index} no {}", refusal.number()),
    }
}

fn kind(event: &Event) -> u8 {
    match event {
        Event::Start { .. } => frames::START,
        Event::Enter { .. } => frames::ENTER,
        Event::Send { .. } => frames::SEND,
        Event::Wire { .. } => frames::WIRE,
        Event::Radio { .. } => frames::RADIO,
        Event::Move { .. } => frames::MOVE,
        Event::Steady { .. } => frames::STEADY,
        Event::Group { .. } => frames::GROUP,
        Event::GroupSend { .. } => frames::GROUP_SEND,
        Event::LongSend { .. } => frames::LONG_SEND,
        Event::Retire { .. } => frames::RETIRE,
    }
}

/// What happened in a frame, as a sentence. The floor is the one that the frame left.
pub fn sentence(moment: &Moment, floor: &Floor) -> String {
    let step = match &moment.answer {
        Ok(step) => step,
        Err(refusal) => return refused::sentence(&moment.event, *refusal, floor),
    };
    match moment.event {
        Event::Start { stations, carts } => format!(
            "The floor starts with {} and {}.",
            counted(stations.into(), "station"),
            counted(carts.into(), "cart")
        ),
        Event::Enter { station, cart } => {
            let passed = passed(step.p, "from before it came");
            format!("Cart {} enters at station {}{passed}.", cart.0, station.0)
        }
        Event::Send { station, set, text } | Event::LongSend { station, set, text } => {
            sent(station, step, &carts(set), text)
        }
        Event::GroupSend { station, group, text } => {
            let to = format!("group {} ({})", group.0, carts(floor.group(group)));
            sent(station, step, &to, text)
        }
        Event::Wire { from, to } => wired(moment.record, from, to, step, floor),
        Event::Radio { station, cart } => handed(station, cart, step, &moment.text, floor),
        Event::Move { cart, to } => moved(cart, to, floor),
        Event::Steady { cart, steady: true } => format!("Cart {} is steady.", cart.0),
        Event::Steady { cart, steady: false } => {
            format!("Cart {} is not steady, and receives nothing until it is.", cart.0)
        }
        Event::Group { group, set: 0 } => format!("Group {} is no longer defined.", group.0),
        Event::Group { group, set } => format!("Group {} is now {}.", group.0, carts(set)),
        Event::Retire { cart } => retired(cart, &moment.emptied),
    }
}

/// The numbers passed over in a step, if there are any.
fn passed(p: u64, which: &str) -> String {
    match p {
        0 => String::new(),
        _ => format!(" and passes over {} {which}", counted(p, "correction")),
    }
}

fn sent(station: StationNo, step: &Step, to: &str, octets: &[u8]) -> String {
    let out = counted(step.w.into(), "station");
    format!(
        "Station {} sends correction {} ({}) to {to}; it goes out to {out}.",
        station.0,
        step.b,
        text(octets)
    )
}

fn moved(cart: CartNo, to: StationNo, floor: &Floor) -> String {
    let old = match floor.place(cart) {
        Place::Leaving(old) => format!("station {} has yet to hear of it", old.0),
        _ => "its old station has yet to hear of it".into(),
    };
    format!("Cart {} greets station {}; {old}.", cart.0, to.0)
}

fn retired(cart: CartNo, emptied: &[GroupNo]) -> String {
    let numbers: Vec<String> = emptied.iter().map(|group| group.0.to_string()).collect();
    let groups = match numbers.len() {
        0 => String::new(),
        1 => format!("; group {} has no member left and is not defined any more", numbers[0]),
        _ => {
            format!("; groups {} have no member left and are not defined any more", listed(numbers))
        }
    };
    format!("Cart {} goes back to the factory, and leaves every group{groups}.", cart.0)
}

/// A radio step: the receipt, the acknowledgement, and what the cart waits for next.
fn handed(station: StationNo, cart: CartNo, step: &Step, octets: &[u8], floor: &Floor) -> String {
    let name = Name { initiator: StationNo(step.a as u8), number: MessageNo(step.b) };
    let mut said = format!(
        "Cart {} at station {} receives {} ({}).",
        cart.0,
        station.0,
        correction(name),
        text(octets)
    );
    match step.w {
        0 => said += " The station keeps the acknowledgement until others here have it too.",
        _ => {
            let to = other(name.initiator, station);
            let _ = write!(said, " Station {} acknowledges it to {to}.", station.0);
        }
    }
    let then =
        [passed(step.p, "for others"), waits(station, cart, step.q, floor, Some(name.initiator))];
    match then.join("").strip_prefix(" and") {
        Some(then) => format!("{said} The cart then{then}."),
        None => said,
    }
}

/// A station in the eyes of another, or of itself.
fn other(station: StationNo, to: StationNo) -> String {
    match station == to {
        true => "itself".into(),
        false => format!("station {}", station.0),
    }
}

/// What a cart was queued for in a step, of one initiator or of all: " and waits for ...".
fn waits(at: StationNo, cart: CartNo, q: u8, floor: &Floor, of: Option<StationNo>) -> String {
    if q == 0 {
        return String::new();
    }
    let queue = floor.queue(at).zip(1_u8..);
    let places: Vec<String> = queue
        .filter(|((_, carts), _)| carts & cart.alone() != 0)
        .filter(|((name, _), _)| of.is_none_or(|initiator| name.initiator == initiator))
        .map(|((name, _), place)| format!("{} (place {place})", correction(name)))
        .collect();
    format!(" and waits for {}", listed(places))
}

/// A wire step, by the record that it handled.
fn wired(
    record: Option<Carried>,
    from: StationNo,
    to: StationNo,
    step: &Step,
    floor: &Floor,
) -> String {
    match record {
        Some(Carried::Multicast(name)) => multicast(name, to, step, floor),
        Some(Carried::AckList(name, list)) => acknowledged(name, list, from, step, floor),
        Some(Carried::Delete(name)) => deleted(name, to, floor),
        Some(Carried::Deregister(cart)) => deregistered(cart, from, to, step),
        Some(Carried::Register(cart)) => registered(cart, to, step, floor),
        None => String::new(),
    }
}

fn multicast(name: Name, to: StationNo, step: &Step, floor: &Floor) -> String {
    let itself = if name.initiator == to { " itself" } else { "" };
    let mut said = format!("{} reaches station {}{itself}", capital(&correction(name)), to.0);
    let queued = floor.queue(to).find(|(other, _)| *other == name).map_or(0, |(_, carts)| carts);
    if queued != 0 {
        let wait = agree(queued, "waits", "wait");
        let _ = write!(said, ", where {} {wait} for it (place {})", carts(queued), step.q);
    }
    let behind = behind(name, to, floor) & !queued;
    if behind != 0 {
        let have = agree(behind, "has", "have");
        let _ = write!(said, "; {} {have} earlier ones to receive first", carts(behind));
    }
    match step.p {
        0 if queued | behind == 0 => said += "; no cart there needs it",
        0 => (),
        1 => said += "; 1 cart passes it over",
        p => _ = write!(said, "; {p} carts pass it over"),
    }
    said + "."
}

/// The carts at a station that a message names and that have not received it.
fn behind(name: Name, at: StationNo, floor: &Floor) -> u64 {
    let held = floor.held_messages().find(|held| held.name == name);
    held.map_or(0, |held| floor.missing(&held) & floor.local(at))
}

fn acknowledged(name: Name, list: u64, from: StationNo, step: &Step, floor: &Floor) -> String {
    let mut said = format!(
        "Station {} hears from {} that {} {} its correction {}",
        name.initiator.0,
        other(from, name.initiator),
        carts(list),
        agree(list, "has", "have"),
        name.number.0
    );
    let held = floor.held_messages().find(|held| held.name == name);
    let missing = held.map_or(0, |held| held.set & !held.acknowledged);
    match step.w {
        0 => {
            let have = agree(missing, "has", "have");
            let _ = write!(said, "; {} {have} not acknowledged it yet", carts(missing));
        }
        w => {
            let verb = if w == 1 { "goes" } else { "go" };
            let _ = write!(said, ". All have it now: {} {verb} out", counted(w.into(), "delete"));
        }
    }
    said + "."
}

fn deleted(name: Name, to: StationNo, floor: &Floor) -> String {
    let last = floor.held_messages().all(|held| held.name != name);
    let last = if last { " That was the last delete: it is no longer held." } else { "" };
    format!("Station {} deletes {}.{last}", to.0, correction(name))
}

fn deregistered(cart: CartNo, new: StationNo, old: StationNo, step: &Step) -> String {
    let lists = match step.w {
        0 | 1 => String::new(),
        w => {
            format!(", with {} of what others here have", counted(w as u64 - 1, "acknowledgement"))
        }
    };
    format!(
        "Station {} hears that cart {} has left for station {}, and hands it over{lists}.",
        old.0, cart.0, new.0
    )
}

fn registered(cart: CartNo, to: StationNo, step: &Step, floor: &Floor) -> String {
    let passed = passed(step.p, "for others");
    let waits = waits(to, cart, step.q, floor, None);
    format!("Cart {} arrives at station {}{passed}{waits}.", cart.0, to.0)
}

/// A frame in few words, for pictures; messages by initiator and number.
pub fn in_short(moment: &Moment) -> String {
    let step = match &moment.answer {
        Ok(step) => step,
        Err(refusal) => return format!("no {}: {}", refusal.number(), refused::row(*refusal)),
    };
    let sent = |to: String, text: &[u8]| format!("{}:{} to {to}: {}", step.a, step.b, brief(text));
    match moment.event {
        Event::Start { stations, carts } => {
            format!(
                "start: {}, {}",
                counted(stations.into(), "station"),
                counted(carts.into(), "cart")
            )
        }
        Event::Enter { station, cart } => {
            format!("cart {} enters at station {}", cart.0, station.0)
        }
        Event::Send { set, text, .. } | Event::LongSend { set, text, .. } => sent(few(set), text),
        Event::GroupSend { group, text, .. } => sent(format!("group {}", group.0), text),
        Event::Wire { from, to } => wired_in_short(moment.record, from, to),
        Event::Radio { cart, .. } => {
            format!("cart {} receives {}:{}: {}", cart.0, step.a, step.b, brief(&moment.text))
        }
        Event::Move { cart, to } => format!("cart {} greets station {}", cart.0, to.0),
        Event::Steady { cart, steady: true } => format!("cart {} is steady", cart.0),
        Event::Steady { cart, steady: false } => format!("cart {} is not steady", cart.0),
        Event::Group { group, set: 0 } => format!("group {} ends", group.0),
        Event::Group { group, set } => format!("group {} is {}", group.0, few(set)),
        Event::Retire { cart } => format!("cart {} retires", cart.0),
    }
}

fn wired_in_short(record: Option<Carried>, from: StationNo, to: StationNo) -> String {
    match record {
        Some(Carried::Multicast(name)) => format!("{} reaches station {}", short(name), to.0),
        Some(Carried::AckList(name, list)) => {
            format!(
                "station {} hears: {} {} {}",
                to.0,
                few(list),
                agree(list, "has", "have"),
                short(name)
            )
        }
        Some(Carried::Delete(name)) => format!("{} deleted at station {}", short(name), to.0),
        Some(Carried::Deregister(cart)) => {
            format!("station {} lets cart {} go to {}", to.0, cart.0, from.0)
        }
        Some(Carried::Register(cart)) => format!("cart {} arrives at station {}", cart.0, to.0),
        None => String::new(),
    }
}

/// A set of carts, by their number where there are many.
fn few(set: u64) -> String {
    match set.count_ones() {
        0..=4 => carts(set),
        many => format!("{many} carts"),
    }
}
