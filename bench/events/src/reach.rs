//! Floors that events reach: small and full-size ones, after short and long runs.

use plain::{CartNo, Floor, GroupNo, StationNo};
use shared::floors::{self, some_table, some_text};
use shared::numbers::Numbers;

/// A size: often small, now and then the largest.
fn size(numbers: &mut Numbers) -> (u64, u64) {
    match numbers.below(6) {
        0 => (16, 64),
        1..=3 => (1 + numbers.below(4), 1 + numbers.below(8)),
        _ => (1 + numbers.below(16), 1 + numbers.below(64)),
    }
}

/// Which kinds come how often: a run may have few sends or many, and its lines may fill or stay short.
fn weights(numbers: &mut Numbers) -> [u64; 10] {
    std::array::from_fn(|kind| 1 + numbers.below([4, 4, 4, 12, 2, 2, 3, 4, 3, 24][kind]))
}

fn step(numbers: &mut Numbers, floor: &mut Floor, weights: &[u64; 10], n: u64, k: u64) {
    let (s, t) = (StationNo(numbers.below(n) as u8), StationNo(numbers.below(n) as u8));
    let cart = CartNo(numbers.below(k) as u8);
    let mut at = numbers.below(weights.iter().sum());
    let kind = weights.iter().position(|&w| {
        let here = at < w;
        at = at.wrapping_sub(w);
        here
    });
    // A refused event is none.
    let _ = match kind {
        Some(0) => floor.enter(s, cart),
        Some(1) => {
            let set = floor.entered() & numbers.next() & numbers.next();
            floor.send(s, set, &some_text(numbers))
        }
        Some(2) => floor.move_cart(cart, t),
        Some(3) => {
            let queued = floor.head(s).unwrap_or(0);
            let cart = if queued == 0 { cart } else { CartNo(queued.trailing_zeros() as u8) };
            floor.radio(s, cart, &mut [0; 512]).map(|(step, _)| step)
        }
        Some(4) => floor.set_steady(cart, numbers.below(2) == 0),
        Some(5) => {
            let set = floor.entered() & numbers.next() & numbers.next();
            floor.set_group(GroupNo(numbers.below(16) as u8), set)
        }
        Some(6) => {
            let group = GroupNo(numbers.below(16) as u8);
            floor.send_to_group(s, group, &some_text(numbers))
        }
        Some(7) => {
            let set = floor.entered() & numbers.next() & numbers.next();
            floor.send_long(s, set, &some_table(numbers))
        }
        Some(8) => floor.retire(cart),
        _ => floor.wire(s, t),
    };
}

/// What some run leaves.
pub fn floor(numbers: &mut Numbers) -> Floor {
    match numbers.below(30) {
        0 => return floors::few(8),
        1 => return floors::few(32),
        2 => return floors::many(),
        3..=5 => return floors::random(numbers.below(1 << 40)),
        _ => {}
    }
    let (n, k) = size(numbers);
    let mut floor = Floor::new();
    floor.start(n as u8, k as u8).expect("the size is one that a floor may have");
    let weights = weights(numbers);
    for _ in 0..numbers.below(16) << numbers.below(9) {
        step(numbers, &mut floor, &weights, n, k);
    }
    floor
}
