//! Measures the proved leaf functions beside the same in plain Rust: the same calls on the same floor, in turns, in one run. For each it
//! prints both times and the speed of the proved function as a part of plain Rust's. Every answer is compared.

mod plain;
mod proved;

use shared::numbers::Numbers;
use std::hint::black_box;
use std::time::Instant;

const ROUNDS: usize = 40;
const CALLS: usize = 20_000;

/// One floor, in the lent words and in plain structs: as many held messages as asked, each buffered at most stations.
fn floors(held: usize) -> (proved::Tables, plain::Tables) {
    let mut numbers = Numbers(0x9e37_79b9_7f4a_7c15);
    let mut words = proved::Tables::new();
    let mut plain = plain::Tables::new();
    for t in 0..16 {
        let row = 116 * (1 + t);
        for s in 0..16 {
            let expected = 100 + numbers.below(20);
            words.stations[row + 1 + s] = expected;
            plain.stations[t].expected[s] = expected;
        }
        let local = numbers.next() & numbers.next();
        words.stations[row + 17] = local;
        plain.stations[t].local = local;
        for m in 0..held {
            let copy = numbers.next() & numbers.next();
            let acks = copy & numbers.next();
            let queue = if numbers.below(3) == 0 { local & copy & numbers.next() } else { 0 };
            words.stations[row + 18 + 3 * m] = copy;
            words.stations[row + 19 + 3 * m] = acks;
            words.stations[row + 20 + 3 * m] = queue;
            plain.stations[t].put(m, plain::Entry { copy, acks, queue });
        }
        words.stations[row + 114] = plain.stations[t].copied as u64;
        words.stations[row + 115] = plain.stations[t].queued as u64;
    }
    for m in 0..held {
        let (initiator, number, waiting) =
            (m % 16, 90 + numbers.below(25), numbers.next() & 0xffff | 1);
        words.messages[7 * m] = initiator as u64;
        words.messages[7 * m + 1] = number;
        words.messages[7 * m + 4] = waiting;
        plain.held[m] = plain::Held { initiator, number, waiting };
    }
    for c in 0..64 {
        for s in 0..16 {
            let next = 80 + numbers.below(35);
            words.carts[19 * c + 3 + s] = next;
            plain.next[c][s] = next;
        }
    }
    (words, plain)
}

/// How long each of so many calls takes.
fn nanoseconds(calls: usize, run: impl FnOnce()) -> f64 {
    let begin = Instant::now();
    run();
    begin.elapsed().as_nanos() as f64 / calls as f64
}

/// Runs the two in turns; the least time of each, in nanoseconds for one call.
fn in_turns(mut proved: impl FnMut(usize), mut plain: impl FnMut(usize)) -> (f64, f64) {
    let mut least = (f64::MAX, f64::MAX);
    for _ in 0..ROUNDS {
        least.0 = nanoseconds(CALLS, || (0..CALLS).for_each(|k| proved(k % 16))).min(least.0);
        least.1 = nanoseconds(CALLS, || (0..CALLS).for_each(|k| plain(k % 16))).min(least.1);
    }
    least
}

fn say(name: &str, (proved, plain): (f64, f64)) {
    println!(
        "{name:<28} proved {proved:7.2} ns   plain {plain:7.2} ns   speed proved/plain {:.2}",
        plain / proved
    );
}

/// Some records on the lines; then as many pushes as there is room for on lines that change, and the pops of as many.
fn lines() {
    const SOME: usize = 1_000;
    const MORE: usize = 2_000;
    let mut proved = proved::Lines::new();
    let mut plain = plain::Lines::new();
    let mut numbers = Numbers(77);
    let mut at = || (numbers.below(16) as usize, numbers.below(16) as usize, numbers.next());
    for (i, j, word) in (0..SOME).map(|_| at()) {
        // Safety: no more than SOME records.
        unsafe { proved.push(i, j, word, word >> 7) };
        plain.push(i, j, word, word >> 7);
    }
    let at: Vec<(usize, usize, u64)> = (0..MORE).map(|_| at()).collect();
    let mut pushes = (f64::MAX, f64::MAX);
    let mut pops = (f64::MAX, f64::MAX);
    for _ in 0..ROUNDS * CALLS / MORE {
        // Safety: no more than SOME and MORE records, and each pop is of a line that was pushed to.
        pushes.0 = nanoseconds(MORE, || {
            at.iter().for_each(|&(i, j, word)| unsafe { proved.push(i, j, word, word >> 7) })
        })
        .min(pushes.0);
        pushes.1 = nanoseconds(MORE, || {
            at.iter().for_each(|&(i, j, word)| plain.push(i, j, word, word >> 7))
        })
        .min(pushes.1);
        pops.0 = nanoseconds(MORE, || at.iter().for_each(|&(i, j, _)| unsafe { proved.pop(i, j) }))
            .min(pops.0);
        pops.1 = nanoseconds(MORE, || at.iter().for_each(|&(i, j, _)| plain.pop(i, j))).min(pops.1);
    }
    for i in 0..16 {
        for j in 0..16 {
            assert_eq!(proved.head(i, j), plain.head(i, j), "the lines from {i} to {j} differ");
        }
    }
    say("a push", pushes);
    say("a pop", pops);
}

fn tables(held: usize) {
    let (words, plain) = floors(held);
    for t in 0..16 {
        assert_eq!(words.head(t), plain.head(t).unwrap_or(32), "the heads at {t} differ");
        for m in 0..32 {
            assert_eq!(
                words.all_acked(m, t),
                plain.all_acked(m, t),
                "the ack tests of {m} at {t} differ"
            );
        }
        for c in 0..64 {
            assert_eq!(
                words.catch_up(t, c),
                plain.catch_up(t, c),
                "the catch-ups of {c} at {t} differ"
            );
        }
    }
    println!("{held} held messages");
    let head = in_turns(
        |t| {
            black_box(words.head(black_box(t)));
        },
        |t| {
            black_box(plain.head(black_box(t)));
        },
    );
    say("the head of the queue", head);
    let acked = in_turns(
        |t| {
            black_box(words.all_acked(black_box(t), t));
        },
        |t| {
            black_box(plain.all_acked(black_box(t), t));
        },
    );
    say("the ack test", acked);
    let caught = in_turns(
        |t| {
            black_box(words.catch_up(t, black_box(4 * t)));
        },
        |t| {
            black_box(plain.catch_up(t, black_box(4 * t)));
        },
    );
    say("catch-up, all initiators", caught);
}

fn main() {
    lines();
    tables(6);
    tables(32);
}
