//! The proved form test beside the same rule in plain Rust: their answers on floors that events reach and on damaged ones, where a difference
//! ends the program with 1; then their times on full-size floors, in turns in one run.

mod damage;
mod proved;

use plain::words::Words;
use shared::numbers::Numbers;
use shared::places::{in_order, scattered};
use shared::progress::Progress;
use shared::{floors, rule};
use std::collections::BTreeMap;
use std::hint::black_box;
use std::process::ExitCode;
use std::time::Instant;

const ROUNDS: usize = 500;
const CALLS: usize = 50;

type Test = fn(&[u64], &[u64], &[u64], &[u64], &[u8], &[u8]) -> bool;

fn ask(test: Test, w: &Words) -> bool {
    test(&w.stations, &w.carts, &w.messages, &w.lines, &w.texts, &w.store)
}

/// Both answers on a floor; the clause that it breaks, if any.
fn compare(w: &Words, what: &str) -> Result<Option<rule::Fault>, String> {
    let plain = rule::check(&w.stations, &w.carts, &w.messages, &w.lines, &w.texts, &w.store);
    let proved = ask(proved::passes, w);
    if proved != plain.is_ok() {
        return Err(format!("{what}: the proved test says {proved}, plain Rust {plain:?}"));
    }
    Ok(plain.err())
}

fn compare_all(bases: &[Words], damaged: usize) -> Result<(), String> {
    let mut numbers = Numbers(0xdada);
    let mut broken = BTreeMap::new();
    let mut passed = 0;
    let mut progress = Progress::new("form");
    for (b, base) in bases.iter().enumerate() {
        progress.of(b, bases.len(), "floors");
        if let Some(fault) = compare(base, &format!("floor {b}"))? {
            return Err(format!("floor {b}, which events reach, is refused: {fault:?}"));
        }
        for d in 0..damaged {
            let mut w = base.clone();
            damage::damage(&mut numbers, &mut w);
            match compare(&w, &format!("floor {b}, damage {d}"))? {
                Some(fault) => *broken.entry(fault).or_insert(0) += 1,
                None => passed += 1,
            }
        }
    }
    drop(progress);
    println!("{} floors that events reach: both pass each", bases.len());
    println!("{} damaged floors: the answers are the same, {passed} pass", bases.len() * damaged);
    println!("clauses that plain Rust found broken: {broken:?}");
    Ok(())
}

fn nanoseconds(run: impl FnOnce()) -> f64 {
    let begin = Instant::now();
    run();
    begin.elapsed().as_nanos() as f64 / CALLS as f64
}

/// Asks both in turns; the least time of each.
fn measure(name: &str, w: &Words) {
    let mut least = (f64::MAX, f64::MAX);
    let run = |test: Test| {
        nanoseconds(|| {
            (0..CALLS).for_each(|_| {
                black_box(ask(black_box(test), black_box(w)));
            })
        })
    };
    let mut progress = Progress::new("form");
    for round in 0..ROUNDS {
        progress.of(round, ROUNDS, "rounds");
        least.0 = run(proved::passes).min(least.0);
        least.1 = run(rule::passes).min(least.1);
    }
    drop(progress);
    println!(
        "{name:<36} proved {:7.2} us   plain {:7.2} us   speed proved/plain {:.2}",
        least.0 / 1e3,
        least.1 / 1e3,
        least.1 / least.0
    );
}

fn main() -> ExitCode {
    let (usual, few, many) = (floors::few(8), floors::few(32), floors::many());
    let mut bases = vec![usual.words(scattered), few.words(scattered), many.words(in_order)];
    bases.extend((0..60).map(|seed| floors::random(seed).words(scattered)));
    if let Err(difference) = compare_all(&bases, 500) {
        eprintln!("{difference}");
        return ExitCode::FAILURE;
    }
    println!("16 stations, 64 carts:");
    for floor in [&usual, &few, &many] {
        let name = format!("{} held, {} records", floor.held(), floors::records(floor));
        measure(&format!("{name}, rows in order"), &floor.words(in_order));
        measure(&format!("{name}, rows apart"), &floor.words(scattered));
    }
    ExitCode::SUCCESS
}
