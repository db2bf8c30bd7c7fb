//! Trials: a floor that events reach, damaged, then events on it, on the proved side and on the plain one.

use crate::choose;
use crate::damage;
use crate::event::{self, Event, KINDS};
use crate::proved::{self, Said, WORDS};
use crate::reach;
use plain::words::Words;
use plain::Floor;
use shared::numbers::Numbers;
use shared::places::{in_order, scattered};
use shared::progress::Progress;
use shared::rule::Fault;
use std::collections::BTreeMap;
use std::time::{Duration, Instant};

/// Trials on one floor before the next is made.
const ON_ONE: u64 = 100;
/// Events after one damage, while they are accepted.
const IN_A_ROW: u64 = 4;
/// The words behind those of the answer, which stay.
const BEHIND: u64 = 0xbe41_17d5;

/// How often which kind of event had which answer, 0 where accepted, and what was done to the floors.
#[derive(Default)]
struct Counts {
    answers: BTreeMap<(usize, u64), u64>,
    /// How many floors broke the form rule, passed it and said the same, and passed it and said another floor.
    passed: BTreeMap<&'static str, [u64; 3]>,
    faults: BTreeMap<Fault, u64>,
    events: u64,
    /// How often a reading call had which number.
    reads: BTreeMap<u64, u64>,
    /// The longest way to a quiet floor.
    most_steps: u64,
}

impl Counts {
    fn answer(&mut self, event: &Event, said: &Said) {
        self.events += 1;
        *self.answers.entry((event.kind(), said[0])).or_default() += 1;
        if let Event::Quiet = event {
            self.most_steps = self.most_steps.max(said[1]);
        }
    }
}

/// Rows of the pool as a young floor has them, or far apart.
fn row(apart: bool) -> fn(usize) -> usize {
    if apart {
        scattered
    } else {
        in_order
    }
}

/// The step without the form test, on a floor that passes: it leaves what the whole event left.
fn step_alone(
    before: &Words,
    event: &Event,
    lent: &[u8],
    (left, buffer, out): (&Words, &[u8], &[u64]),
) -> Result<(), String> {
    if !event.text_fits() {
        return Ok(());
    }
    let (mut w, mut b, mut o) = (before.clone(), lent.to_vec(), [BEHIND; WORDS + 1]);
    // Safety: the floor passes the form rule, which the whole event tested, and the text has a length that its kind may have.
    unsafe { proved::step(&mut w, event, &mut b, &mut o) };
    let same = w == *left && b == buffer && o == out;
    same.then_some(()).ok_or_else(|| format!("the step alone differs: {o:?}, {out:?}"))
}

/// One event on both sides. Accepted, refused, or a difference.
fn one(w: &mut Words, event: &Event, lent: &[u8], counts: &mut Counts) -> Result<bool, String> {
    let found = event::known(w);
    if let Err(fault) = found {
        *counts.faults.entry(fault).or_default() += 1;
    }
    let before = w.clone();
    let (mut buffer, mut expected) = (lent.to_vec(), lent.to_vec());
    let mut out = [BEHIND; WORDS + 1];
    proved::call(w, event, &mut buffer, &mut out);
    if found.is_ok() && out[0] != 5 {
        step_alone(&before, event, lent, (w, &buffer, &out))?;
    }
    let (said, floor) = event::plain(&before, found.ok(), event, &mut expected);
    counts.answer(event, &said);
    let (answer, behind) = out.split_at(event.words());
    if *answer != said[..answer.len()] || behind.iter().any(|&word| word != BEHIND) {
        return Err(format!("the proved event answers {out:?}, the plain floor {said:?}"));
    }
    if buffer != expected {
        return Err(format!("the lent buffers differ: {buffer:?}, {expected:?}"));
    }
    let Some(floor) = floor else {
        let same = *w == before && buffer == lent;
        return if same { Ok(false) } else { Err("a refusal changed lent memory".into()) };
    };
    let left =
        event::known(w).map_err(|fault| format!("the floor left breaks the rule: {fault:?}"))?;
    match left.difference(&floor) {
        None => Ok(true),
        Some(difference) => Err(format!("the floors differ, proved then plain: {difference}")),
    }
}

/// The reading call on both sides, for some message: its number, and which octets it lends from which part.
fn read(w: &mut Words, initiator: u64, number: u64, counts: &mut Counts) -> Result<(), String> {
    let before = w.clone();
    let mut out = [BEHIND; WORDS];
    proved::text(w, initiator, number, &mut out);
    let [refusal, stored, at, octets, behind @ ..] = out;
    if *w != before || behind != [BEHIND; WORDS - 4] {
        return Err("a reading call changed lent memory".into());
    }
    let (said, text) = event::read(&before, initiator, number);
    *counts.reads.entry(said).or_default() += 1;
    let (from, row) =
        (if stored == 1 { &w.store } else { &w.texts }, event::row(w, initiator, number));
    let lent = from.get(at as usize..(at + octets) as usize);
    // "that text's own part": the room's, or where the row says; "the empty part at the front of the short table".
    let own = match row {
        Some((m, row)) if said == 0 && row[5] <= 32 => [0, 32 * m as u64],
        Some((_, row)) if said == 0 => [1, row[6]],
        _ => [0, 0],
    };
    let same = refusal == said && lent == Some(&text) && [stored, at] == own;
    same.then_some(()).ok_or_else(|| {
        format!("the proved call reads {initiator}, {number} as {out:?}, the plain floor as {said}, {text:?}")
    })
}

/// Events on one damaged floor, until one is refused.
fn trial(seed: u64, base: &Words, w: &mut Words, counts: &mut Counts) -> Result<(), String> {
    let mut numbers = Numbers(seed);
    w.clone_from(base);
    let (n, k) = (base.stations[1], base.stations[2]);
    let what = damage::damage(&mut numbers, w);
    let damaged = event::known(w);
    let passes = damaged.is_ok();
    let outcome = damaged.map_or(0, |floor| match floor.difference(&Floor::from_words(base)) {
        None => 1,
        Some(_) => 2,
    });
    counts.passed.entry(what).or_default()[outcome] += 1;
    for _ in 0..IN_A_ROW {
        let floor = event::known(w).ok();
        let event = choose::event(&mut numbers, floor.as_ref(), n, k);
        let buffer = choose::buffer(&mut numbers);
        let (initiator, number) = choose::message(&mut numbers, &w.messages, n);
        read(w, initiator, number, counts)
            .map_err(|difference| format!("after damage \"{what}\": {difference}"))?;
        let accepted = one(w, &event, &buffer, counts)
            .map_err(|difference| format!("{event:?} after damage \"{what}\": {difference}"))?;
        if !accepted && !passes {
            break;
        }
    }
    Ok(())
}

fn report(counts: &Counts, trials: u64) {
    println!("{trials} trials, {} events: no difference", counts.events);
    println!("damage, and how many floors then broke the form rule, passed it unchanged, passed it as another floor:");
    for (what, [broke, same, other]) in &counts.passed {
        println!("  {what:<22} {broke:>9} {same:>9} {other:>9}");
    }
    println!("events by kind: accepted, then each refusal with how often it was the answer");
    for (kind, name) in KINDS.iter().enumerate() {
        let of = |r: u64| counts.answers.get(&(kind, r)).copied().unwrap_or(0);
        let refusals: Vec<String> =
            (1..=29).filter(|&r| of(r) > 0).map(|r| format!("{r}: {}", of(r))).collect();
        println!("  {name:<13} {:>9}   {}", of(0), refusals.join(", "));
    }
    println!("reading calls by their number: {:?}", counts.reads);
    println!("most steps until a floor was quiet: {}", counts.most_steps);
    let met = |r: u64| counts.answers.keys().any(|&(_, s)| s == r);
    let missing: Vec<u64> = (4..22).chain(24..28).chain([29]).filter(|&r| !met(r)).collect();
    println!("refusals 4 to 21, 24 to 27 and 29 that never occurred: {missing:?}");
    println!("clauses of the form rule found broken: {:?}", counts.faults);
}

/// So many seconds of trials from a seed.
pub fn run(seconds: u64, seed: u64) -> Result<(), String> {
    let begin = Instant::now();
    let end = begin + Duration::from_secs(seconds);
    let mut progress = Progress::new("trials");
    let mut counts = Counts::default();
    let mut trials = 0;
    let mut w = Floor::new().words(row(false));
    for round in 0.. {
        if Instant::now() >= end {
            break;
        }
        let seed = seed.wrapping_add(round).wrapping_mul(0x9e37_79b9_7f4a_7c15) | 1;
        let mut numbers = Numbers(seed);
        let base = reach::floor(&mut numbers).words(row(numbers.below(2) == 0));
        for k in 0..ON_ONE {
            let of_trial = (seed ^ (k + 1) << 24).max(1);
            trial(of_trial, &base, &mut w, &mut counts)
                .map_err(|difference| format!("round {round}, trial {k}: {difference}"))?;
            trials += 1;
        }
        progress
            .at(|| format!("{} of {seconds} seconds, {trials} trials", begin.elapsed().as_secs()));
    }
    drop(progress);
    report(&counts, trials);
    Ok(())
}
