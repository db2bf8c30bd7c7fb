//! Times of the events beside the plain floor's, on a floor of 16 stations and 64 carts, in turns in one run. The events come in cycles that
//! leave the floor as it was, but for the numbers: hand-offs of all carts, or sixteen messages from their send to their last delete. A call that
//! runs a full floor until it is quiet is measured by its steps.

use crate::behind::Behind;
use crate::event::{self, Event};
use crate::proved::{self, Said, WORDS};
use plain::floor::LONG;
use plain::words::Words;
use plain::{Floor, StationNo};
use shared::numbers::Numbers;
use shared::progress::Progress;
use std::hint::black_box;
use std::time::Instant;

/// Rounds of each cycle; the numbers rise by one in each, and by 32 where a round fills the floor.
const ROUNDS: usize = 2_000;
/// Messages that stay on the floor all the time; the carts they name are all at one station, which the cycle of messages leaves alone.
const STAY: u64 = 8;
const BLOCKED: u64 = 15;
/// The most steps that a run is known to leave until the floor is quiet.
const STEPS: u64 = 3_712;

/// Events of one sort, measured together.
struct Batch {
    name: &'static str,
    events: Vec<Event>,
}

/// One side: it does an event and answers it.
trait Side: Clone {
    fn answer(&mut self, event: &Event, buffer: &mut [u8; LONG]) -> Said;
    fn floor(&self) -> Floor;
}

#[derive(Clone)]
struct Plain(Box<Floor>);

/// The proved event with its form test.
#[derive(Clone)]
struct Whole(Words);

/// The proved event without.
#[derive(Clone)]
struct StepOnly(Words);

impl Side for Plain {
    #[inline(always)]
    fn answer(&mut self, event: &Event, buffer: &mut [u8; LONG]) -> Said {
        event::apply(&mut self.0, event, buffer)
    }

    fn floor(&self) -> Floor {
        (*self.0).clone()
    }
}

impl Side for Behind {
    #[inline(always)]
    fn answer(&mut self, event: &Event, buffer: &mut [u8; LONG]) -> Said {
        Behind::answer(self, event, buffer)
    }

    fn floor(&self) -> Floor {
        (*self.floor).clone()
    }
}

impl Side for Whole {
    #[inline(always)]
    fn answer(&mut self, event: &Event, buffer: &mut [u8; LONG]) -> Said {
        let mut out = [0; WORDS];
        proved::call(&mut self.0, event, buffer, &mut out);
        out
    }

    fn floor(&self) -> Floor {
        Floor::from_words(&self.0)
    }
}

impl Side for StepOnly {
    #[inline(always)]
    fn answer(&mut self, event: &Event, buffer: &mut [u8; LONG]) -> Said {
        let mut out = [0; WORDS];
        // Safety: the floor was reached by events from a start, and every text here has a length that its kind may have.
        unsafe { proved::step(&mut self.0, event, buffer, &mut out) };
        out
    }

    fn floor(&self) -> Floor {
        Floor::from_words(&self.0)
    }
}

/// Nanoseconds for each event of a batch.
#[inline(never)]
fn nanoseconds<S: Side>(side: &mut S, events: &[Event]) -> f64 {
    let mut buffer = [0; LONG];
    let begin = Instant::now();
    for event in events {
        black_box(side.answer(black_box(event), &mut buffer));
    }
    begin.elapsed().as_nanos() as f64 / events.len() as f64
}

/// Does the events on a floor for which they are made, and holds it to their acceptance.
fn accept(floor: &mut Floor, events: &[Event]) {
    for event in events {
        let said = event::apply(floor, event, &mut [0; LONG]);
        assert!(said[0] == 0, "{event:?} is refused with {}", said[0]);
    }
}

/// All carts entered, station c % 16 for cart c.
fn entered() -> Floor {
    let mut floor = Floor::new();
    let mut events = vec![Event::Start(16, 64)];
    events.extend((0..64).map(|c| Event::Enter(c % 16, c)));
    accept(&mut floor, &events);
    floor
}

/// The same, and STAY messages buffered everywhere.
fn settled() -> Floor {
    let mut floor = entered();
    let blocked = (0..64).filter(|c| c % 16 == BLOCKED).fold(0, |set, c| set | 1 << c);
    let sends: Vec<Event> = (0..STAY).map(|m| Event::Send(m, blocked, vec![m as u8; 9])).collect();
    accept(&mut floor, &sends);
    wire_all(&mut floor);
    floor
}

/// The wire events that empty all lines, once over: what they put there is left for the next.
fn wire_all(floor: &mut Floor) -> Vec<Event> {
    let lines = (0..16).flat_map(|i| (0..16).map(move |j| (i, j)));
    let events: Vec<Event> = lines
        .flat_map(|(i, j)| {
            let records = floor.on_line(StationNo(i as u8), StationNo(j as u8));
            (0..records).map(move |_| Event::Wire(i, j))
        })
        .collect();
    accept(floor, &events);
    events
}

/// Eight carts of those that the cycle of messages may name.
fn eight(numbers: &mut Numbers) -> u64 {
    let free = (0..64).filter(|c| c % 16 != BLOCKED).collect::<Vec<u64>>();
    let mut set = 0u64;
    while set.count_ones() < 8 {
        set |= 1 << free[numbers.below(free.len() as u64) as usize];
    }
    set
}

/// Sixteen messages, each to eight carts, until all are deleted: one of every two stations sends to a group, which gets its members before.
fn messages(floor: &mut Floor) -> Vec<Batch> {
    let mut numbers = Numbers(0x5eed);
    let (mut groups, mut sends, mut to_groups) = (vec![], vec![], vec![]);
    for s in 0..16 {
        let set = eight(&mut numbers);
        let text = (0..1 + 2 * s).map(|_| numbers.next() as u8).collect();
        if s % 2 == 0 {
            sends.push(Event::Send(s, set, text));
        } else {
            groups.push(Event::Group(s, set));
            to_groups.push(Event::SendGroup(s, s, text));
        }
    }
    [&groups, &sends, &to_groups].into_iter().for_each(|events| accept(floor, events));
    let multicasts = wire_all(floor);
    let mut radios = vec![];
    for t in (0..16).filter(|&t| t != BLOCKED) {
        while let Some(queued) = floor.head(StationNo(t as u8)) {
            let radio = Event::Radio(t, queued.trailing_zeros() as u64);
            accept(floor, std::slice::from_ref(&radio));
            radios.push(radio);
        }
    }
    let acks = wire_all(floor);
    let deletes = wire_all(floor);
    assert!(floor.held() == STAY as usize);
    vec![
        Batch { name: "group", events: groups },
        Batch { name: "send", events: sends },
        Batch { name: "send to group", events: to_groups },
        Batch { name: "wire, multicast", events: multicasts },
        Batch { name: "radio", events: radios },
        Batch { name: "wire, ack list", events: acks },
        Batch { name: "wire, delete", events: deletes },
    ]
}

/// Where a cart goes: from where it entered to the next station, and in the other turn back.
fn to(c: u64, turn: u64) -> u64 {
    (c + 1 - turn) % 16
}

fn moves(turn: u64) -> Vec<Event> {
    (0..64).map(|c| Event::Move(c, to(c, turn))).collect()
}

/// Every cart goes to the next station, and back.
fn hand_offs(floor: &mut Floor) -> Vec<Batch> {
    let mut batches = vec![];
    for turn in 0..2 {
        let here = |c: u64| (c + turn) % 16;
        let deregisters = (0..64).map(|c| Event::Wire(to(c, turn), here(c))).collect();
        let registers = (0..64).map(|c| Event::Wire(here(c), to(c, turn))).collect();
        batches.push(Batch { name: "move", events: moves(turn) });
        batches.push(Batch { name: "wire, deregister", events: deregisters });
        batches.push(Batch { name: "wire, register", events: registers });
    }
    batches.iter().for_each(|batch| accept(floor, &batch.events));
    batches
}

/// Wire events of lines that are empty: what every event costs before it does anything, with the call from one language to the other.
fn refusals() -> Vec<Batch> {
    let events = (0..64).map(|k| Event::Wire(k % 16, (k + 1) % 16)).collect();
    vec![Batch { name: "wire, refused", events }]
}

/// All carts but one enter, where STAY messages of other numbers have been, and go back: no held message names them.
fn entries() -> (Floor, Vec<Batch>) {
    let mut floor = Floor::new();
    accept(&mut floor, &[Event::Start(16, 64), Event::Enter(BLOCKED, 63)]);
    for m in 0..STAY {
        accept(&mut floor, &[Event::Send(m, 1 << 63, vec![7; 9])]);
    }
    wire_all(&mut floor);
    let enters = (0..63).map(|c| Event::Enter(c % 16, c)).collect();
    let retires = (0..63).map(Event::Retire).collect();
    let batches =
        vec![Batch { name: "enter", events: enters }, Batch { name: "retire", events: retires }];
    (floor, batches)
}

/// The least times of each batch.
#[derive(Clone, Copy)]
struct Least {
    step: f64,
    whole: f64,
    plain: f64,
    behind: f64,
}

impl Least {
    const NONE: Least =
        Least { step: f64::MAX, whole: f64::MAX, plain: f64::MAX, behind: f64::MAX };
}

fn measure<S: Side>(
    side: &mut S,
    batches: &[Batch],
    least: &mut [Least],
    of: fn(&mut Least) -> &mut f64,
) {
    for (batch, least) in batches.iter().zip(least) {
        let least = of(least);
        *least = nanoseconds(side, &batch.events).min(*least);
    }
}

/// All sides in turns, each cycle on the floor that the last one left, or afresh.
fn in_turns(base: &Floor, batches: &[Batch], afresh: bool, steps_alone: bool) -> Vec<Least> {
    let words = base.words(|k| k);
    let plain = Plain(Box::new(base.clone()));
    let first = (StepOnly(words.clone()), Whole(words), plain, Behind::new(base.clone()));
    let (mut step, mut whole, mut plain, mut behind) = first.clone();
    let mut least = vec![Least::NONE; batches.len()];
    let mut progress = Progress::new("time");
    for round in 0..ROUNDS {
        progress.of(round, ROUNDS, "rounds");
        if afresh {
            (step, whole, plain, behind) = first.clone();
        }
        measure(&mut step, batches, &mut least, |l| &mut l.step);
        measure(&mut plain, batches, &mut least, |l| &mut l.plain);
        measure(&mut behind, batches, &mut least, |l| &mut l.behind);
        if !steps_alone {
            measure(&mut whole, batches, &mut least, |l| &mut l.whole);
        }
    }
    let end = plain.floor();
    assert_eq!(step.floor().difference(&end), None, "the floors differ after all rounds");
    assert!(steps_alone || whole.floor().difference(&end).is_none(), "the floors differ");
    least
}

/// One line for each name; batches of the same name are joined.
fn print(batches: &[Batch], least: &[Least]) {
    let mut names: Vec<&str> = batches.iter().map(|batch| batch.name).collect();
    names.sort_by_key(|&name| batches.iter().position(|batch| batch.name == name));
    names.dedup();
    for name in names {
        let of: Vec<usize> = (0..batches.len()).filter(|&b| batches[b].name == name).collect();
        let mean = |side: fn(&Least) -> f64| {
            of.iter().map(|&b| side(&least[b])).sum::<f64>() / of.len() as f64
        };
        let (step, plain) = (mean(|l| l.step), mean(|l| l.plain));
        let (behind, whole) = (mean(|l| l.behind), mean(|l| l.whole));
        let whole = if whole < f64::MAX { format!("{whole:8.1} ns") } else { "-".into() };
        println!(
            "{name:<17} {step:8.2} {plain:8.2} {:8.2} {behind:12.2} {:8.2}   {whole}",
            plain / step,
            behind / step
        );
    }
}

/// Start writes all afresh; the plain floor's start finds a new floor, so only the proved one is measured.
fn start() {
    let base = Whole(settled().words(|k| k));
    let mut least = f64::MAX;
    let mut whole = base.clone();
    for _ in 0..ROUNDS {
        whole.clone_from(&base);
        whole.0.stations[0] = 0;
        least = nanoseconds(&mut whole, &[Event::Start(16, 64)]).min(least);
    }
    println!("start: whole event {least:.1} ns, all written afresh");
}

/// Fills a floor and runs it until it is quiet: the nanoseconds for each of the steps.
fn until_quiet<S: Side>(side: &mut S, fill: &[Event]) -> f64 {
    for event in fill {
        let said = side.answer(event, &mut [0; LONG]);
        assert!(said[0] == 0, "{event:?} is refused with {}", said[0]);
    }
    let mut buffer = [0; LONG];
    let begin = Instant::now();
    let said = black_box(side.answer(black_box(&Event::Quiet), &mut buffer));
    let all = begin.elapsed().as_nanos() as f64;
    assert!(said[..2] == [0, STEPS], "the call answers {said:?}");
    all / STEPS as f64
}

/// The floor that takes STEPS: 32 messages to all carts are on the lines, and each cart has greeted another station. Afterwards nothing is held,
/// and it can be filled again.
fn quiet() {
    let base = entered();
    let (mut proved, mut plain) = (StepOnly(base.words(|k| k)), Plain(Box::new(base)));
    let (mut least, mut ratios) = ([f64::MAX; 2], vec![]);
    let mut progress = Progress::new("quiet");
    for round in 0..ROUNDS as u64 {
        progress.of(round as usize, ROUNDS, "rounds");
        let mut fill = vec![Event::Send(0, u64::MAX, vec![0x71]); 32];
        fill.extend(moves(round % 2));
        let (ours, theirs) = (until_quiet(&mut proved, &fill), until_quiet(&mut plain, &fill));
        least = [ours.min(least[0]), theirs.min(least[1])];
        ratios.push(theirs / ours);
    }
    drop(progress);
    assert_eq!(proved.floor().difference(&plain.floor()), None, "the floors differ");
    ratios.sort_by(f64::total_cmp);
    println!(
        "quiet: {STEPS} steps; for each {:.2} ns, plain {:.2}, ratio {:.2}, in the median of all rounds {:.2}",
        least[0],
        least[1],
        least[1] / least[0],
        ratios[ROUNDS / 2]
    );
}

/// Prints the times; for a profile of the steps, without those of the whole events.
pub fn run(steps_alone: bool) -> Result<(), String> {
    println!("16 stations, 64 carts; the least of {ROUNDS} rounds, for one event");
    start();
    println!(
        "{:<17} {:>8} {:>8} {:>8} {:>12} {:>8}   whole event",
        "nanoseconds", "step", "plain", "ratio", "same call", "ratio"
    );
    let (floor, batches) = entries();
    print(&batches, &in_turns(&floor, &batches, true, steps_alone));
    let base = settled();
    let batches = refusals();
    print(&batches, &in_turns(&base, &batches, false, steps_alone));
    let batches = messages(&mut base.clone());
    print(&batches, &in_turns(&base, &batches, false, steps_alone));
    let batches = hand_offs(&mut base.clone());
    print(&batches, &in_turns(&base, &batches, false, steps_alone));
    quiet();
    Ok(())
}
