//! Floors near the last number, written out by hand: no run of events comes there soon.

use crate::event::{self, Event};
use crate::proved::{self, Said, WORDS};
use plain::words::{Words, STATION_ROW};
use plain::Floor;
use shared::places::in_order;

/// The floor's last number, which no message has once every number is used up.
const LAST: u64 = 4_294_967_294;

fn answer(w: &mut Words, event: &Event) -> Said {
    let mut out = [0; WORDS];
    proved::call(w, event, &mut [], &mut out);
    out
}

fn refused(number: u64) -> Said {
    [number, 0, 0, 0, 0, 0, 0, 0]
}

/// A started floor on which every station has sent so many messages, and every station has handled all of them and deleted them.
fn after(stations: u64, carts: u64, sent: u64) -> Words {
    let mut w = Floor::new().words(in_order);
    answer(&mut w, &Event::Start(stations, carts));
    let n = stations as usize;
    for row in w.stations.chunks_exact_mut(STATION_ROW).skip(1).take(n) {
        row[..1 + n].fill(sent);
    }
    w
}

/// A step of the whole event passes over 16 × 4,294,967,295 numbers. A loop that turned once for each of them would not end here.
#[test]
fn all_numbers_in_one_step() {
    let mut w = after(16, 64, LAST + 1);
    assert!(event::known(&w).is_ok());
    assert_eq!(answer(&mut w, &Event::Enter(7, 63)), [0, 1, 7, 63, 68_719_476_720, 0, 0, 0]);
    assert_eq!(w.carts[19 * 63 + 3..][..16], [LAST + 1; 16]);
    assert!(event::known(&w).is_ok());
}

/// The twin of K6.
#[test]
fn the_last_number() {
    let mut w = after(1, 1, LAST);
    let send = Event::Send(0, 1, vec![10]);
    assert_eq!(answer(&mut w, &Event::Enter(0, 0)), [0, 1, 0, 0, LAST, 0, 0, 0]);
    assert_eq!(answer(&mut w, &send), [0, 2, 0, LAST, 0, 1, 0, 0]);
    assert_eq!(answer(&mut w, &send), refused(13));
    assert_eq!(answer(&mut w, &Event::Wire(0, 0)), [0, 3, 1, LAST, 0, 0, 1, 0]);
}

/// The kit's last number is none for the floor.
#[test]
fn beyond_sixteen_bits() {
    let mut w = after(1, 1, 65_534);
    answer(&mut w, &Event::Enter(0, 0));
    for number in 65_534..65_537 {
        let said = answer(&mut w, &Event::Send(0, 1, vec![10]));
        assert_eq!(said, [0, 2, 0, number, 0, 1, 0, 0]);
    }
}

/// A word has places for more than 32 bits; the form rule has none for them.
#[test]
fn beyond_thirty_two_bits() {
    let mut w = after(16, 64, LAST + 2);
    assert_eq!(answer(&mut w, &Event::Enter(7, 63)), refused(5));
}
