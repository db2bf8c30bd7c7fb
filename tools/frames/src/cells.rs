//! A floor as cells of text, and how a frame changes them: what the page of a run is made of. The
//! page has the changes of each frame, and puts the floor of any frame together from them.
//!
//! * `c3`, cart 3: its place (`at`, `leaving`, `travelling`), station, where it goes or `-`, and 1
//!   if it is steady.
//! * `s0`, station 0: the carts at it or leaving it.
//! * `q0`, the queue of station 0, its head first: `1:0/3` is correction 0 of station 1, for carts 0
//!   and 1.
//! * `l2-0`, the line from 2 to 0, the next record first: `m1:0` a correction, `k1:0/3` an
//!   acknowledgement, `d1:0` a delete, `g3` cart 3 has come, `r3` it is handed over.
//! * `m1:0`, a held correction: the carts that it names, that have acknowledged it, that have
//!   received it; the stations that keep it; its text.
//! * `g4`, the carts of group 4.
//!
//! Sets are hexadecimal, cart c with weight 2^c. What is not there has no cell.

use std::collections::BTreeMap;

use plain::floor::{carts_of, GROUPS};
use plain::view::{Carried, HeldMessage};
use plain::{CartNo, Floor, GroupNo, Place, StationNo};

use crate::words::{digits, short};

/// The cells of a floor by their names.
pub type Cells = BTreeMap<String, String>;

/// The cells of a floor.
pub fn cells(floor: &Floor) -> Cells {
    let mut cells = Cells::new();
    let stations = || (0..floor.stations()).map(StationNo);
    // Where the carts go that are on their way.
    let mut going = BTreeMap::new();
    for (from, to) in stations().flat_map(|from| stations().map(move |to| (from, to))) {
        let records: Vec<Carried> = floor.records(from, to).collect();
        for record in &records {
            match record {
                Carried::Deregister(cart) => going.insert(cart.0, from),
                Carried::Register(cart) => going.insert(cart.0, to),
                _ => None,
            };
        }
        let said: Vec<String> = records.into_iter().map(carried).collect();
        put(&mut cells, format!("l{}-{}", from.0, to.0), said.join(" "));
    }
    for cart in carts_of(floor.entered()) {
        let said = cart_cell(floor, cart, going.get(&cart.0));
        put(&mut cells, format!("c{}", cart.0), said);
    }
    for station in stations() {
        put(&mut cells, format!("s{}", station.0), set(floor.local(station)));
        let queue = floor.queue(station).map(|(name, carts)| format!("{}/{carts:x}", short(name)));
        put(&mut cells, format!("q{}", station.0), queue.collect::<Vec<_>>().join(" "));
    }
    for held in floor.held_messages() {
        put(&mut cells, format!("m{}", short(held.name)), message_cell(floor, &held));
    }
    for group in (0..GROUPS as u8).map(GroupNo) {
        put(&mut cells, format!("g{}", group.0), set(floor.group(group)));
    }
    cells
}

/// What has nothing to say has no cell.
fn put(cells: &mut Cells, name: String, said: String) {
    if !said.is_empty() {
        cells.insert(name, said);
    }
}

fn set(carts: u64) -> String {
    match carts {
        0 => String::new(),
        _ => format!("{carts:x}"),
    }
}

fn carried(record: Carried) -> String {
    match record {
        Carried::Multicast(name) => format!("m{}", short(name)),
        Carried::AckList(name, carts) => format!("k{}/{carts:x}", short(name)),
        Carried::Delete(name) => format!("d{}", short(name)),
        Carried::Deregister(cart) => format!("g{}", cart.0),
        Carried::Register(cart) => format!("r{}", cart.0),
    }
}

fn cart_cell(floor: &Floor, cart: CartNo, going: Option<&StationNo>) -> String {
    let steady = (floor.unsteady() & cart.alone() == 0) as u8;
    let to = going.map_or("-".into(), |to| to.0.to_string());
    match floor.place(cart) {
        Place::Outside => String::new(),
        Place::At(station) => format!("at {} - {steady}", station.0),
        Place::Leaving(station) => format!("leaving {} {to} {steady}", station.0),
        Place::Travelling => format!("travelling - {to} {steady}"),
    }
}

fn message_cell(floor: &Floor, held: &HeldMessage) -> String {
    let name = held.name;
    let received = held.set & !floor.missing(held);
    let keeping = (0..floor.stations())
        .filter(|station| floor.buffered(StationNo(*station)).any(|(other, _)| other == name))
        .fold(0_u16, |set, station| set | 1 << station);
    let text = digits(held.text);
    format!("{:x} {:x} {received:x} {keeping:x} {text}", held.set, held.acknowledged)
}

/// The cells that differ, with what they say afterwards; a cell that has gone says nothing.
pub fn changes(before: &Cells, after: &Cells) -> Cells {
    let gone = before.keys().filter(|name| !after.contains_key(*name));
    let new = after.iter().filter(|(name, said)| before.get(*name) != Some(said));
    gone.map(|name| (name.clone(), String::new()))
        .chain(new.map(|(name, said)| (name.clone(), said.clone())))
        .collect()
}

#[cfg(test)]
mod tests {
    use super::*;

    #[test]
    fn a_floor_in_cells() {
        let (one, two) = (StationNo(0), StationNo(1));
        let mut floor = Box::new(Floor::new());
        floor.start(2, 6).unwrap();
        assert_eq!(cells(&floor), Cells::new());
        floor.enter(one, CartNo(0)).unwrap();
        floor.enter(one, CartNo(5)).unwrap();
        floor.set_group(GroupNo(4), 0x21).unwrap();
        floor.send(two, 0x21, &[0xA1]).unwrap();
        floor.wire(two, one).unwrap();
        floor.radio(one, CartNo(0), &mut [0; 1]).unwrap();
        floor.set_steady(CartNo(0), false).unwrap();
        floor.move_cart(CartNo(5), two).unwrap();
        let before = cells(&floor);
        let said = [
            ("c0", "at 0 - 0"),
            ("c5", "leaving 0 1 1"),
            ("g4", "21"),
            ("l1-0", "g5"),
            ("l1-1", "m1:0"),
            ("m1:0", "21 0 1 1 a1"),
            ("q0", "1:0/20"),
            ("s0", "21"),
        ];
        let wanted: Cells = said.map(|(name, said)| (name.into(), said.into())).into();
        assert_eq!(before, wanted);
        floor.wire(two, one).unwrap();
        let changed = changes(&before, &cells(&floor));
        let said = [
            ("c5", "travelling - 1 1"),
            ("l0-1", "k1:0/1 r5"),
            ("l1-0", ""),
            ("q0", ""),
            ("s0", "1"),
        ];
        let wanted: Cells = said.map(|(name, said)| (name.into(), said.into())).into();
        assert_eq!(changed, wanted);
    }
}
