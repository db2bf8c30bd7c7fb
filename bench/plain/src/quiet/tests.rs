use super::*;
use crate::floor::Limits;

const BUFFER: [u8; LONG] = [0; LONG];

fn floor(stations: u8, carts: u8) -> Floor {
    let mut floor = Floor::new();
    floor.start(stations, carts).unwrap();
    floor
}

fn s(station: u8) -> StationNo {
    StationNo(station)
}

fn c(cart: u8) -> CartNo {
    CartNo(cart)
}

#[test]
fn refused_before_the_first_step() {
    assert_eq!(Floor::new().quiet(&mut []), Err(Refusal::NotStarted));
    assert_eq!(Floor::new().quiet(&mut BUFFER.clone()), Err(Refusal::NotStarted));
    let mut f = floor(2, 1);
    f.enter(s(0), c(0)).unwrap();
    f.send(s(1), 1, &[0xA1]).unwrap();
    let before = f.clone();
    // By the buffer's length alone: here one octet would do, and at the end none.
    for length in 0..LONG {
        let mut short = vec![0xEE; length];
        assert_eq!(f.quiet(&mut short), Err(Refusal::ShortBuffer));
        assert_eq!(f.difference(&before), None);
        assert_eq!(short, vec![0xEE; length]);
    }
    assert_eq!(f.quiet(&mut BUFFER.clone()), Ok(6));
    assert_eq!(f.quiet(&mut [0; LONG - 1]), Err(Refusal::ShortBuffer));
}

#[test]
fn a_floor_without_work_is_quiet() {
    for (stations, carts) in [(1, 1), (3, 2), (16, 64)] {
        let mut f = floor(stations, carts);
        assert_eq!(f.quiet(&mut BUFFER.clone()), Ok(0));
        f.enter(s(stations - 1), c(carts - 1)).unwrap();
        assert_eq!(f.quiet(&mut BUFFER.clone()), Ok(0));
    }
}

#[test]
fn k1_from_each_of_its_floors() {
    let mut f = floor(2, 1);
    let mut steps = vec![f.clone().quiet(&mut BUFFER.clone()).unwrap()];
    let mut after = |f: &Floor| steps.push(f.clone().quiet(&mut BUFFER.clone()).unwrap());
    f.enter(s(0), c(0)).unwrap();
    after(&f);
    f.send(s(1), 1, &[0xA1]).unwrap();
    after(&f);
    f.wire(s(1), s(1)).unwrap();
    after(&f);
    f.move_cart(c(0), s(1)).unwrap();
    after(&f);
    for (from, to) in [(1, 0), (1, 0), (0, 1)] {
        f.wire(s(from), s(to)).unwrap();
        after(&f);
    }
    f.radio(s(1), c(0), &mut BUFFER.clone()).unwrap();
    after(&f);
    assert_eq!(steps, [0, 0, 6, 5, 7, 6, 5, 4, 3]);
}

#[test]
fn the_first_line_is_by_from_then_to() {
    let mut f = floor(16, 1);
    f.enter(s(0), c(0)).unwrap();
    assert_eq!(Open::of(&f).first_line(), None);
    // From the last line to the first, each is the first of those that have a record.
    for from in (0..16).rev() {
        for to in (0..16).rev() {
            f.lines[line(s(from), s(to))].push_back(crate::floor::Record::Register(c(0)));
            assert_eq!(Open::of(&f).first_line(), Some((s(from), s(to))));
        }
    }
}

#[test]
fn the_lowest_station_and_the_lowest_cart_that_would_be_accepted() {
    let mut f = floor(3, 64);
    for (cart, station) in [(9, 2), (40, 1), (63, 1), (50, 1), (3, 0)] {
        f.enter(s(station), c(cart)).unwrap();
    }
    let first = |f: &Floor| Open::of(f).first_cart(f);
    assert_eq!(first(&f), None);
    f.send(s(0), c(9).alone() | c(40).alone() | c(50).alone() | c(63).alone(), &[1]).unwrap();
    f.wire(s(0), s(0)).unwrap();
    assert_eq!(first(&f), None);
    f.wire(s(0), s(2)).unwrap();
    assert_eq!(first(&f), Some((s(2), c(9))));
    f.wire(s(0), s(1)).unwrap();
    // Not cart 9, which is lower, but at a higher station.
    assert_eq!(first(&f), Some((s(1), c(40))));
    f.set_steady(c(40), false).unwrap();
    assert_eq!(first(&f), Some((s(1), c(50))));
    f.move_cart(c(50), s(0)).unwrap();
    assert_eq!(first(&f), Some((s(1), c(63))));
    f.set_steady(c(63), false).unwrap();
    assert_eq!(first(&f), Some((s(2), c(9))));
    f.set_steady(c(9), false).unwrap();
    assert_eq!(first(&f), None);
}

#[test]
fn a_line_goes_before_a_cart() {
    let mut f = floor(2, 1);
    f.enter(s(0), c(0)).unwrap();
    f.send(s(0), 1, &[0xAA]).unwrap();
    f.wire(s(0), s(0)).unwrap();
    f.send(s(1), 1, &[0xBB; 3]).unwrap();
    // The cart could receive station 0's at once. When the lines are empty, station 1's is before
    // it, and what is longer of its text is left behind the other.
    let mut buffer = [0xEE; LONG + 1];
    assert_eq!(f.quiet(&mut buffer), Ok(11));
    assert_eq!(buffer[..4], [0xAA, 0xBB, 0xBB, 0xEE]);
    assert_eq!(buffer[4..], [0xEE; LONG - 3]);
    assert_eq!(f.held(), 0);
}

#[test]
fn a_cart_that_is_not_steady_waits_and_others_do_not() {
    let mut f = floor(2, 3);
    for (cart, station) in [(0, 0), (1, 0), (2, 1)] {
        f.enter(s(station), c(cart)).unwrap();
    }
    f.set_steady(c(0), false).unwrap();
    f.send(s(0), 0b111, &[1]).unwrap();
    f.send(s(0), 0b110, &[2]).unwrap();
    // Cart 1 receives the first beside cart 0, which then holds back the second. Cart 2 receives
    // both. Of the ack lists, only those of station 1 go.
    assert_eq!(f.quiet(&mut BUFFER.clone()), Ok(4 + 1 + 2 + 2));
    assert_eq!((f.held(), f.next(c(1), s(0)), f.next(c(2), s(0))), (2, 1, 2));
    assert_eq!(f.quiet(&mut BUFFER.clone()), Ok(0));
    f.set_steady(c(0), true).unwrap();
    // Carts 0 and 1, a list and two deletes for each message.
    assert_eq!(f.quiet(&mut BUFFER.clone()), Ok(2 + 2 * 3));
    assert_eq!(f.held(), 0);
}

/// A full floor of a product with all messages sent and every cart leaving; the steps until it is
/// quiet.
fn most_steps(mut f: Floor) -> u32 {
    let Limits { stations, carts, held, .. } = f.limits();
    f.start(stations, carts).unwrap();
    for cart in 0..carts {
        f.enter(s(cart % stations), c(cart)).unwrap();
    }
    for _ in 0..held {
        f.send(s(0), f.all_carts(), &[0x71]).unwrap();
    }
    for cart in 0..carts {
        f.move_cart(c(cart), s((cart + 1) % stations)).unwrap();
    }
    let steps = f.quiet(&mut BUFFER.clone()).unwrap();
    assert_eq!(f.held(), 0);
    assert_eq!(f.quiet(&mut BUFFER.clone()), Ok(0));
    steps
}

#[test]
fn the_most_steps_that_a_run_is_known_to_leave() {
    // A multicast, an ack list and a delete for each station and a receipt for each cart, of each
    // message; and two records for each cart.
    assert_eq!(most_steps(Floor::new()), 32 * (16 + 16 + 16 + 64) + 2 * 64);
    assert_eq!(most_steps(Floor::kit()), 8 * (4 + 4 + 4 + 8) + 2 * 8);
}
