//! The proved lists kept by hand beside plain Rust: any calls first, where every answer, every buffer and that a refusal changes nothing are
//! compared; then sends and takes are measured, in turns, in one run, and the speed of the proved ones is printed as a part of plain Rust's.

mod plain;
mod proved;

use shared::numbers::Numbers;
use shared::progress::Progress;
use std::hint::black_box;
use std::time::Instant;

/// The longest text.
pub const TEXT: usize = 512;
/// Octets of the text that is measured: those of a correction, and not of a table.
const SHORT: usize = 32;

#[derive(Debug, PartialEq)]
pub enum Answer {
    Refused(u64),
    Accepted { number: u64, size: usize },
}

const TRIALS: u64 = 60;
const CALLS: usize = 12_000;
const ROUNDS: usize = 60;

/// One of three: a number on the floor mostly, at its edge at times, or any.
fn number(numbers: &mut Numbers, count: u64) -> u64 {
    match numbers.below(40) {
        0 => numbers.next(),
        1 => count,
        _ => numbers.below(count),
    }
}

/// Any calls on all three; how many were accepted, and how often each refusal was met.
fn trial(seed: u64, met: &mut [u64; 32]) {
    let mut numbers = Numbers(seed);
    let (mut words, mut rows, mut queues) =
        (proved::Lists::new(), plain::Lists::new(), plain::Queues::new());
    let (n, k) = (1 + numbers.below(16), 1 + numbers.below(64));
    let few = numbers.below(2) == 0;
    let mut buffers = [[0xa5u8; TEXT]; 3];
    for call in 0..CALLS {
        let before = words.clone();
        let begins = call == 9 || numbers.below(200) == 0;
        let answers = if begins {
            let (n, k) = if call == 9 { (n, k) } else { (numbers.below(20), numbers.below(70)) };
            [words.start(n, k), rows.start(n, k), queues.start(n, k)]
        } else if numbers.below(2) == 0 {
            let station = number(&mut numbers, n);
            let all = if k < 64 { (1 << k) - 1 } else { u64::MAX };
            let set = match numbers.below(30) {
                0 => numbers.next(),
                1 => 0,
                _ if few => 1 << numbers.below(k),
                _ => numbers.next() & numbers.next() & all,
            };
            let longest = if numbers.below(8) == 0 { TEXT } else { SHORT } as u64;
            let size = numbers.below(longest + 2);
            let text: Vec<u8> = (0..size).map(|_| numbers.next() as u8).collect();
            [
                words.send(station, set, &text),
                rows.send(station, set, &text),
                queues.send(station, set, &text),
            ]
        } else {
            let (station, cart) = (number(&mut numbers, n), number(&mut numbers, k));
            let [a, b, c] = &mut buffers;
            [
                words.take(station, cart, a),
                rows.take(station, cart, b),
                queues.take(station, cart, c),
            ]
        };
        assert!(
            answers[0] == answers[1] && answers[1] == answers[2],
            "seed {seed}, call {call}: {answers:?}"
        );
        assert!(
            buffers[0] == buffers[1] && buffers[1] == buffers[2],
            "seed {seed}, call {call}: other texts"
        );
        match answers[0] {
            Answer::Refused(refusal) => {
                assert!(words == before, "seed {seed}, call {call}: a refusal changed something");
                met[refusal as usize] += 1;
            }
            Answer::Accepted { .. } => met[0] += 1,
        }
    }
}

/// A damaged word of the counts or of a used row: both calls still answer, and where 5 is the answer nothing is changed.
fn damage(seed: u64) -> (u64, u64) {
    let mut numbers = Numbers(seed);
    let mut words = proved::Lists::new();
    words.start(16, 64);
    for _ in 0..100 {
        words.send(numbers.below(16), numbers.next() & numbers.next(), b"damaged");
    }
    let (mut refused, mut passed) = (0, 0);
    for _ in 0..300 {
        let mut other = words.clone();
        let value = if numbers.below(2) == 0 { numbers.next() } else { numbers.below(70) };
        if numbers.below(3) == 0 {
            other.counts[numbers.below(21) as usize] = value;
        } else {
            other.sends[numbers.below(400) as usize] = value;
        }
        let before = other.clone();
        match other.take(numbers.below(16), numbers.below(64), &mut [0; TEXT]) {
            Answer::Refused(5) => {
                assert!(other == before, "seed {seed}: 5 changed something");
                refused += 1;
            }
            _ => passed += 1,
        }
    }
    (refused, passed)
}

/// The calls of one round: sends to so many carts each, until the lists are full, and takes that empty them, in any order.
struct Work {
    sends: Vec<(u64, u64)>,
    takes: Vec<(u64, u64)>,
}

fn work(carts: u32) -> Work {
    let mut numbers = Numbers(0x9e37_79b9_7f4a_7c15);
    let (mut sends, mut takes) = (Vec::new(), Vec::new());
    for _ in 0..2048 / carts {
        let (station, mut set) = (numbers.below(16), 0u64);
        while set.count_ones() < carts {
            set |= 1 << numbers.below(64);
        }
        sends.push((station, set));
        takes.extend((0..64).filter(|c| set >> c & 1 == 1).map(|c| (station, c)));
    }
    for i in (1..takes.len()).rev() {
        takes.swap(i, numbers.below(i as u64 + 1) as usize);
    }
    Work { sends, takes }
}

/// How long each of so many calls takes.
fn nanoseconds(calls: usize, run: impl FnOnce()) -> f64 {
    let begin = Instant::now();
    run();
    begin.elapsed().as_nanos() as f64 / calls as f64
}

fn say(name: &str, carts: u32, proved: f64, plain: f64) {
    println!("{name:<24} {carts:>2} carts   proved {proved:8.1} ns   plain {plain:8.1} ns   speed proved/plain {:.2}", plain / proved);
}

/// Rounds of the same calls on both, in turns; the least time of each.
fn measure(carts: u32) {
    let work = work(carts);
    let (mut words, mut rows, mut tested) =
        (proved::Lists::new(), plain::Lists::new(), proved::Lists::new());
    words.start(16, 64);
    rows.start(16, 64);
    tested.start(16, 64);
    let text: &[u8] = black_box(&[0x5a; SHORT]);
    let mut buffer = [0; TEXT];
    let mut least = [f64::MAX; 6];
    let mut progress = Progress::new("time");
    for round in 0..ROUNDS {
        progress.of(round, ROUNDS, "rounds");
        let (s, t) = (work.sends.len(), work.takes.len());
        let times = [
            nanoseconds(s, || {
                work.sends.iter().for_each(|&(i, set)| {
                    black_box(words.step_send(i, set, text));
                })
            }),
            nanoseconds(s, || {
                work.sends.iter().for_each(|&(i, set)| {
                    black_box(rows.send(i, set, text));
                })
            }),
            nanoseconds(t, || {
                work.takes.iter().for_each(|&(i, c)| {
                    black_box(words.step_take(i, c, &mut buffer));
                })
            }),
            nanoseconds(t, || {
                work.takes.iter().for_each(|&(i, c)| {
                    black_box(rows.take(i, c, &mut buffer));
                })
            }),
        ];
        for (best, time) in least.iter_mut().zip(times) {
            *best = best.min(time);
        }
        if round < 3 {
            least[4] = least[4].min(nanoseconds(s, || {
                work.sends.iter().for_each(|&(i, set)| {
                    black_box(tested.send(i, set, text));
                })
            }));
            least[5] = least[5].min(nanoseconds(t, || {
                work.takes.iter().for_each(|&(i, c)| {
                    black_box(tested.take(i, c, &mut buffer));
                })
            }));
        }
    }
    drop(progress);
    say("send", carts, least[0], least[1]);
    say("take", carts, least[2], least[3]);
    say("send with its form test", carts, least[4], least[1]);
    say("take with its form test", carts, least[5], least[3]);
}

fn main() {
    let mut met = [0; 32];
    let mut progress = Progress::new("trials");
    for seed in 1..=TRIALS {
        progress.of(seed as usize - 1, TRIALS as usize, "trials");
        trial(seed * 0x1234_5678_9abc_def1, &mut met);
    }
    drop(progress);
    let refusals: Vec<String> =
        (1..32).filter(|&r| met[r] > 0).map(|r| format!("{r}: {}", met[r])).collect();
    println!("{} calls accepted alike; refused alike {}", met[0], refusals.join(", "));
    let damaged =
        (1..=40).map(|seed| damage(seed * 77_777_777)).fold((0, 0), |a, b| (a.0 + b.0, a.1 + b.1));
    println!(
        "of damaged lists {} were refused with 5, {} passed the form rule",
        damaged.0, damaged.1
    );
    [64, 8, 1].into_iter().for_each(measure);
}
