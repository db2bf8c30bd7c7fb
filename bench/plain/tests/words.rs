//! Words read back: the floor is the same.

#[path = "../../shared/src/numbers.rs"]
mod numbers;

use numbers::Numbers;
use plain::words::{Words, ROWS};
use plain::{CartNo, Floor, GroupNo, StationNo};

fn words(floor: &Floor) -> Words {
    floor.words(|k| k * 1_237 % ROWS)
}

/// Random events on floors of many sizes; now and then the floor is looked at.
fn on_many_floors(look: impl Fn(&Floor)) {
    for seed in 1..60 {
        let mut numbers = Numbers(seed * 0x9e37_79b9);
        let (n, k) = (1 + numbers.below(16), 1 + numbers.below(64));
        let mut floor = Floor::new();
        floor.start(n as u8, k as u8).expect("the size is one that a floor may have");
        for event in 0..2_000 {
            let (s, t) = (StationNo(numbers.below(n) as u8), StationNo(numbers.below(n) as u8));
            let cart = CartNo(numbers.below(k) as u8);
            // A refused event is none.
            let group = GroupNo(numbers.below(16) as u8);
            let _ = match numbers.below(11) {
                0 => floor.enter(s, cart),
                1 => floor.send(s, floor.entered() & numbers.below(1 << 50), &[event as u8; 7]),
                2 => floor.move_cart(cart, t),
                3 => floor.radio(s, cart, &mut [0; 32]).map(|(step, _)| step),
                4 => floor.set_group(group, floor.entered() & numbers.next()),
                6 => floor.retire(cart),
                5 => floor.send_to_group(s, group, &[event as u8; 9]),
                _ => floor.wire(s, t),
            };
            if event % 50 == 0 {
                look(&floor);
            }
        }
    }
}

#[test]
fn words_say_the_floor_they_were_made_of() {
    on_many_floors(|floor| {
        let said = words(floor);
        let read = Floor::from_words(&said);
        assert_eq!(read.difference(floor), None);
        assert_eq!(words(&read).lines, said.lines);
    });
}

/// Where a station's row says which rooms count, and which words of a room then do: the copy and the
/// ack list, and the queue's entry.
const COUNTED: [(usize, std::ops::Range<usize>); 2] = [(114, 18..20), (115, 20..21)];

#[test]
fn rooms_count_where_they_have_something() {
    on_many_floors(|floor| {
        let said = words(floor);
        assert_eq!(said.stations.len(), 1_972);
        for row in said.stations.chunks_exact(116).skip(1) {
            for (among, at) in COUNTED {
                let some = (0..32).filter(|m| at.clone().any(|k| row[k + 3 * m] != 0));
                assert_eq!(row[among], some.fold(0, |set, m| set | 1 << m));
            }
        }
    });
}

#[test]
fn rooms_that_do_not_count_have_nothing() {
    on_many_floors(|floor| {
        let mut said = words(floor);
        let mut numbers = Numbers(0x5eed);
        for row in said.stations.chunks_exact_mut(116).skip(1) {
            for (among, at) in COUNTED {
                for m in (0..32).filter(|m| row[among] >> m & 1 == 0).collect::<Vec<_>>() {
                    at.clone().for_each(|k| row[k + 3 * m] = numbers.next());
                }
                // There is no room for these bits.
                row[among] |= numbers.next() << 32;
            }
        }
        assert_eq!(Floor::from_words(&said).difference(floor), None);
        for row in said.stations.chunks_exact_mut(116).skip(1) {
            row[115] = 0;
        }
        let read = Floor::from_words(&said);
        assert!((0..floor.stations()).all(|t| read.head(StationNo(t)).is_none()));
    });
}

#[test]
fn floors_that_differ_are_told_apart() {
    let mut floor = Floor::new();
    floor.start(2, 2).expect("the size is one that a floor may have");
    floor.enter(StationNo(0), CartNo(1)).expect("it has not entered");
    let mut other = floor.clone();
    assert_eq!(floor.difference(&other), None);
    other.move_cart(CartNo(1), StationNo(1)).expect("it is at the other");
    assert!(floor.difference(&other).is_some_and(|said| said.starts_with("cart 1")));
}
