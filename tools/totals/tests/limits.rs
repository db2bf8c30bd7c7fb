//! The proved totals at the edges of their limits.

use totals::proved::{join, ratio, sum, CartResult, Fraction, Refused, Tally};

const MOST: u64 = u64::MAX;

fn tally(received: u64, passed: u64) -> Tally {
    Tally { received, passed }
}

fn over(passed: u64, received: u64) -> Option<Fraction> {
    Some(Fraction { passed, received })
}

fn list(count: usize, received: u32, passed: u32) -> Vec<CartResult> {
    vec![CartResult { cart: 7, received, passed }; count]
}

#[test]
fn an_empty_list_is_nothing() {
    assert_eq!(sum(&[]), Ok(tally(0, 0)));
}

#[test]
fn the_longest_list_is_summed() {
    let all = 4096 * u64::from(u32::MAX);
    assert_eq!(sum(&list(4096, u32::MAX, u32::MAX)), Ok(tally(all, all)));
}

#[test]
fn a_longer_list_is_22_even_if_all_are_zero() {
    assert_eq!(sum(&list(4097, 0, 0)), Err(Refused(22)));
    assert_eq!(sum(&list(4097, u32::MAX, u32::MAX)), Err(Refused(22)));
}

#[test]
fn the_cart_is_not_looked_at() {
    let one = CartResult { cart: u32::MAX, received: 3, passed: 1 };
    let other = CartResult { cart: 0, received: 5, passed: 2 };
    assert_eq!(sum(&[one, other, one]), Ok(tally(11, 4)));
}

#[test]
fn a_total_of_64_bits_is_joined_and_one_more_is_23() {
    assert_eq!(join(tally(MOST - 1, 1), tally(1, MOST - 1)), Ok(tally(MOST, MOST)));
    assert_eq!(join(tally(MOST, MOST), tally(0, 0)), Ok(tally(MOST, MOST)));
    assert_eq!(join(tally(MOST, 0), tally(1, 0)), Err(Refused(23)));
    assert_eq!(join(tally(0, 1), tally(0, MOST)), Err(Refused(23)));
}

#[test]
fn a_ratio_is_in_lowest_terms() {
    assert_eq!(ratio(tally(MOST, MOST - 1)), over(MOST - 1, MOST));
    assert_eq!(ratio(tally(MOST, MOST)), over(1, 1));
    assert_eq!(ratio(tally(6, 4)), over(2, 3));
    assert_eq!(ratio(tally(6, 0)), over(0, 1));
}

#[test]
fn nothing_received_is_none() {
    assert_eq!(ratio(tally(0, 7)), None);
    assert_eq!(ratio(tally(0, 0)), None);
}
