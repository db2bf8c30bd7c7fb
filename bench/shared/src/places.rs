//! Places in the lent words of a floor: how long its parts are, where its records may lie, and some place that means something.

use crate::numbers::Numbers;
use plain::floor::GROUPS;
use plain::words::{GROUP_WORDS, ROWS};

/// How many words the stations, carts, messages and lines have, and how many octets the texts and the store.
pub const LENGTHS: [usize; 6] = [1_972, 1_216, 224, 11_250, 1_024, 4_096];

/// Rows of records as a young pool has them.
pub fn in_order(k: usize) -> usize {
    k
}

/// Rows of records far apart.
pub fn scattered(k: usize) -> usize {
    k * 1_237 % ROWS
}

fn one_of(numbers: &mut Numbers, all: &[usize]) -> Option<usize> {
    (!all.is_empty()).then(|| all[numbers.below(all.len() as u64) as usize])
}

/// The word of some group's members, in the stations' part.
pub fn group_word(numbers: &mut Numbers) -> usize {
    GROUP_WORDS + numbers.below(GROUPS as u64) as usize
}

/// A row that some record lies in.
pub fn used_row(numbers: &mut Numbers, lines: &[u64]) -> Option<usize> {
    let used: Vec<usize> = (0..ROWS).filter(|r| lines[r / 64] >> (r % 64) & 1 == 0).collect();
    one_of(numbers, &used)
}

/// A travelling cart, if any is.
pub fn travelling_cart(numbers: &mut Numbers, carts: &[u64]) -> Option<usize> {
    let travelling: Vec<usize> = (0..carts.len() / 19).filter(|c| carts[19 * c] == 3).collect();
    one_of(numbers, &travelling)
}
