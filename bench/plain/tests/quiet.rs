//! The floor run until it is quiet, beside the dispatcher as it is worded.

#[path = "../../shared/src/numbers.rs"]
mod numbers;

use std::collections::BTreeMap;
use std::fs;
use std::io::Write;
use std::path::{Path, PathBuf};
use std::process::{Command, Stdio};

use numbers::Numbers;
use plain::floor::{carts_of, LONG, TEXT};
use plain::frames::{Event, Reader, Taken};
use plain::run::{closing, run, run_on};
use plain::{CartNo, Floor, GroupNo, Limits, MessageNo, StationNo};

/// "That count is at most 5,248 = 32 × (16 + 16 + 64 + 64) + 2 × 64", and in the kit "at most 208".
fn most_steps(limits: Limits) -> u32 {
    let (stations, carts) = (limits.stations as u32, limits.carts as u32);
    limits.held as u32 * (stations + stations + carts + carts) + 2 * carts
}

/// For each station and cart, the numbers and texts that were sent, and those that were received.
type List = BTreeMap<(u8, u8), Vec<(u32, Vec<u8>)>>;

#[derive(Clone, Default)]
struct Lists {
    sent: List,
    received: List,
}

impl Lists {
    /// "The sent and received lists of a cart begin at its latest entry."
    fn enter(&mut self, floor: &mut Floor, station: StationNo, cart: CartNo) -> bool {
        if floor.enter(station, cart).is_err() {
            return false;
        }
        self.sent.retain(|(_, of), _| *of != cart.0);
        self.received.retain(|(_, of), _| *of != cart.0);
        true
    }

    fn send(&mut self, floor: &mut Floor, station: StationNo, set: u64, text: &[u8]) -> bool {
        let Ok(step) = floor.send(station, set, text) else { return false };
        self.sent(station, set, step.b, text)
    }

    fn send_long(&mut self, floor: &mut Floor, station: StationNo, set: u64, text: &[u8]) -> bool {
        let Ok(step) = floor.send_long(station, set, text) else { return false };
        self.sent(station, set, step.b, text)
    }

    /// "The sent list counts group sends by their members at sending."
    fn send_to_group(
        &mut self,
        floor: &mut Floor,
        at: StationNo,
        to: GroupNo,
        text: &[u8],
    ) -> bool {
        let Ok(step) = floor.send_to_group(at, to, text) else { return false };
        self.sent(at, floor.group(to), step.b, text)
    }

    fn sent(&mut self, station: StationNo, set: u64, number: u32, text: &[u8]) -> bool {
        for cart in carts_of(set) {
            self.sent.entry((station.0, cart.0)).or_default().push((number, text.into()));
        }
        true
    }

    fn radio(&mut self, floor: &mut Floor, at: StationNo, cart: CartNo, buffer: &mut [u8]) -> bool {
        let Ok((step, length)) = floor.radio(at, cart, buffer) else { return false };
        let received = self.received.entry((step.a as u8, cart.0)).or_default();
        received.push((step.b, buffer[..length].into()));
        true
    }

    /// One step of the dispatcher. What is refused changes nothing, so every event is tried in its
    /// order, up to the first that is accepted: lines by from, then to, then stations and carts.
    fn dispatched(&mut self, floor: &mut Floor, buffer: &mut [u8]) -> bool {
        let stations = || (0..16).map(StationNo);
        let mut lines = stations().flat_map(|from| stations().map(move |to| (from, to)));
        let mut carts = stations().flat_map(|at| (0..64).map(move |cart| (at, CartNo(cart))));
        lines.any(|(from, to)| floor.wire(from, to).is_ok())
            || carts.any(|(at, cart)| self.radio(floor, at, cart, buffer))
    }
}

/// Runs a floor until it is quiet, the call and the worded dispatcher beside each other; the steps,
/// and the lists afterwards.
fn both(floor: &Floor, lists: &Lists) -> (u32, Lists) {
    let (mut ours, mut theirs, mut lists) = (floor.clone(), floor.clone(), lists.clone());
    let (mut buffer, mut worded) = ([0xEE; LONG + 3], [0xEE; LONG + 3]);
    let steps = ours.quiet(&mut buffer).expect("the floor is started, the buffer long enough");
    let mut count = 0;
    while lists.dispatched(&mut theirs, &mut worded) {
        count += 1;
    }
    assert_eq!((steps, buffer), (count, worded));
    assert_eq!(ours.difference(&theirs), None);
    assert!(steps <= most_steps(floor.limits()), "{steps} steps");
    if floor.entered() & floor.unsteady() == 0 {
        assert_eq!(ours.held(), 0);
    }
    (steps, lists)
}

/// A random event. A refused one is none.
fn event(floor: &mut Floor, lists: &mut Lists, numbers: &mut Numbers, flags: bool) {
    let (n, k) = (floor.stations() as u64, floor.carts() as u64);
    let (s, t) = (StationNo(numbers.below(n) as u8), StationNo(numbers.below(n) as u8));
    let cart = CartNo(numbers.below(k) as u8);
    let _ = match numbers.below(16) {
        0 => lists.enter(floor, s, cart),
        1..=3 => {
            let text = vec![numbers.next() as u8; 1 + numbers.below(TEXT as u64) as usize];
            let set = floor.entered() & (numbers.next() ^ numbers.next() << 1);
            lists.send(floor, s, set, &text)
        }
        4 => floor.move_cart(cart, t).is_ok(),
        5 | 6 => {
            // The head's carts are hard to meet by chance.
            let head = floor.head(s).and_then(|queued| carts_of(queued).last());
            lists.radio(floor, s, head.unwrap_or(cart), &mut [0; LONG])
        }
        8 => {
            let set = floor.entered() & numbers.next();
            floor.set_group(GroupNo(numbers.below(4) as u8), set).is_ok()
        }
        9 => {
            let text = [numbers.next() as u8; 3];
            lists.send_to_group(floor, s, GroupNo(numbers.below(4) as u8), &text)
        }
        10 => {
            let text = vec![numbers.next() as u8; 33 + numbers.below(480) as usize];
            lists.send_long(floor, s, floor.entered() & numbers.next(), &text)
        }
        11 => floor.retire(cart).is_ok(),
        7 if flags => floor.set_steady(cart, numbers.below(3) > 0).is_ok(),
        _ => floor.wire(s, t).is_ok(),
    };
}

/// The call and the worded dispatcher on many floors of a product: the most steps, and how often an
/// unsteady cart kept something from being received.
fn on_many_floors(unstarted: &Floor, seeds: u64) -> (u32, u32) {
    let (mut most, mut blocked) = (0, 0);
    let Limits { stations, carts, .. } = unstarted.limits();
    for seed in 1..seeds {
        let mut numbers = Numbers(seed * 0x9e37_79b9);
        let (n, k) = (1 + numbers.below(stations as u64), 1 + numbers.below(carts as u64));
        let mut floor = unstarted.clone();
        floor.start(n as u8, k as u8).expect("the size is one that a floor may have");
        let mut lists = Lists::default();
        for at in 0..1_500 {
            event(&mut floor, &mut lists, &mut numbers, seed % 2 == 0);
            if at % 150 != 149 {
                continue;
            }
            let (steps, after) = both(&floor, &lists);
            most = most.max(steps);
            if floor.unsteady() == 0 {
                assert_eq!(after.sent, after.received);
            } else if after.sent != after.received {
                blocked += 1;
            }
            // Now and then the floor goes on from there.
            if numbers.below(4) == 0 {
                assert_eq!(floor.quiet(&mut [0; LONG]), Ok(steps));
                lists = after;
                assert_eq!(both(&floor, &lists).0, 0);
            }
        }
    }
    (most, blocked)
}

#[test]
fn the_same_as_the_worded_dispatcher() {
    assert_eq!((most_steps(Limits::FLOOR), most_steps(Limits::KIT)), (5_248, 208));
    let (most, blocked) = on_many_floors(&Floor::new(), 120);
    assert!(most > 1_000 && blocked > 100, "{most} steps at most, {blocked} not quite empty");
    let (most, blocked) = on_many_floors(&Floor::kit(), 60);
    assert!(most > 80 && blocked > 50, "{most} steps at most, {blocked} not quite empty");
}

/// The crate that has the stored runs, seen from this package.
const RUNS: &str = "../../crates/runs/data";

/// The files of a folder that have an ending, by name.
fn files(folder: &Path, ending: &str) -> Vec<PathBuf> {
    let entries = fs::read_dir(folder).unwrap().map(|entry| entry.unwrap().path());
    let mut files: Vec<_> =
        entries.filter(|path| path.extension().is_some_and(|found| found == ending)).collect();
    files.sort();
    assert!(!files.is_empty(), "{}: no file of {ending}", folder.display());
    files
}

fn stored_frames() -> Vec<Vec<u8>> {
    let folder = Path::new(env!("CARGO_MANIFEST_DIR")).join(RUNS);
    files(&folder, "frames").iter().map(|path| fs::read(path).unwrap()).collect()
}

#[test]
fn on_floors_of_the_stored_runs() {
    for frames in stored_frames() {
        let (mut floor, mut lists, mut reader) =
            (Floor::new(), Lists::default(), Reader::new(&frames));
        // Each floor of a short run, and about a hundred of a long one.
        let between = 1 + frames.len() / 16 / 100;
        for index in 0.. {
            let Taken::Event(event) = reader.take() else { break };
            let _ = match event {
                Event::Start { stations, carts } => floor.start(stations, carts).is_ok(),
                Event::Enter { station, cart } => lists.enter(&mut floor, station, cart),
                Event::Retire { cart } => floor.retire(cart).is_ok(),
                Event::Send { station, set, text } => lists.send(&mut floor, station, set, text),
                Event::LongSend { station, set, text } => {
                    lists.send_long(&mut floor, station, set, text)
                }
                Event::Group { group, set } => floor.set_group(group, set).is_ok(),
                Event::GroupSend { station, group, text } => {
                    lists.send_to_group(&mut floor, station, group, text)
                }
                Event::Wire { from, to } => floor.wire(from, to).is_ok(),
                Event::Move { cart, to } => floor.move_cart(cart, to).is_ok(),
                Event::Steady { cart, steady } => floor.set_steady(cart, steady).is_ok(),
                Event::Radio { station, cart } => {
                    lists.radio(&mut floor, station, cart, &mut [0; LONG])
                }
            };
            if index % between == 0 && floor.stations() > 0 {
                let (_, after) = both(&floor, &lists);
                assert!(floor.unsteady() != 0 || after.sent == after.received);
            }
        }
    }
}

/// The line of a call with a buffer of so many octets, as the stored calls have it: the refusal, or
/// the steps, how many messages are then held, and the buffer afterwards, all zero before, without
/// its trailing zero octets.
fn said(floor: &mut Floor, length: usize) -> String {
    let mut buffer = vec![0; length];
    match floor.quiet(&mut buffer) {
        Err(refusal) => format!("quiet {length} = no {}", refusal.number()),
        Ok(steps) => {
            let end = buffer.iter().rposition(|octet| *octet != 0).map_or(0, |last| last + 1);
            let digits: String = buffer[..end].iter().map(|o| format!("{o:02x}")).collect();
            let text = if end == 0 { "-" } else { &digits };
            format!("quiet {length} = ok {steps} {} {text}", floor.held())
        }
    }
}

/// The line of the reading call: its refusal, 0 if none, and the text.
fn read(floor: &Floor, station: u8, number: u32) -> String {
    let (at, which) = (StationNo(station), MessageNo(number));
    let digits: String = floor.read(at, which).iter().map(|o| format!("{o:02x}")).collect();
    let text = if digits.is_empty() { "-" } else { &digits };
    format!("read {station} {number} = {} {text}", floor.read_refusal(at, which))
}

/// Every stored call on the floor that its run leaves: those in `data`, or in the folder that
/// STORED_RUNS names. A name that begins with `kit.` is of the kit.
#[test]
fn the_stored_calls() {
    let data = Path::new(env!("CARGO_MANIFEST_DIR")).join("tests/data");
    let folder = std::env::var_os("STORED_RUNS").map_or(data, PathBuf::from);
    for path in files(&folder, "quiet") {
        let frames = fs::read(path.with_extension("frames")).unwrap();
        let kit = path.file_name().unwrap().to_string_lossy().starts_with("kit.");
        let mut floor = if kit { Floor::kit() } else { Floor::new() };
        run_on(&mut floor, &frames[..], std::io::sink()).unwrap();
        for line in fs::read_to_string(&path).unwrap().lines() {
            let number = |word: &str| word.parse::<u32>().expect("a number");
            let answer = match line.split(' ').collect::<Vec<_>>()[..] {
                ["quiet", length, ..] => said(&mut floor, number(length) as usize),
                ["read", s, n, ..] => read(&floor, number(s) as u8, number(n)),
                _ => panic!("no call: {line}"),
            };
            assert_eq!(answer, line, "{}", path.display());
        }
    }
}

/// What the program `closing` prints.
fn program(frames: &[u8]) -> Vec<u8> {
    let mut program = Command::new(env!("CARGO_BIN_EXE_closing"))
        .stdin(Stdio::piped())
        .stdout(Stdio::piped())
        .spawn()
        .unwrap();
    let (mut input, frames) = (program.stdin.take().unwrap(), frames.to_vec());
    // The program may end before it has read all: refusals 1 to 4 end a run.
    let writer = std::thread::spawn(move || drop(input.write_all(&frames)));
    let output = program.wait_with_output().unwrap();
    writer.join().unwrap();
    assert!(output.status.success());
    output.stdout
}

#[test]
fn closing_prints_the_run_and_one_line_more() {
    let (mut quiet, mut ended) = (0, 0);
    for frames in stored_frames() {
        let mut floor = Floor::new();
        let mut wanted = Vec::new();
        match run_on(&mut floor, &frames[..], &mut wanted).unwrap() {
            None => {
                let steps = both(&floor, &Lists::default()).0;
                floor.quiet(&mut [0; LONG]).unwrap();
                writeln!(wanted, "quiet {steps} {}", floor.held()).unwrap();
                quiet += 1;
            }
            Some(refusal) => {
                assert!(refusal.ends_run());
                ended += 1;
            }
        }
        let printed = program(&frames);
        assert!(printed == wanted, "{} and {} octets", printed.len(), wanted.len());
    }
    assert!(quiet > 0 && ended > 0);
}

/// What `closing` prints for octets, and what `run` prints for them.
fn printed(octets: &[u8]) -> (String, String) {
    let (mut ours, mut plain) = (Vec::new(), Vec::new());
    closing(octets, &mut ours).unwrap();
    run(octets, &mut plain).unwrap();
    (String::from_utf8(ours).unwrap(), String::from_utf8(plain).unwrap())
}

#[test]
fn closing_without_a_start_and_after_a_refused_frame() {
    assert_eq!(printed(&[]), ("quiet no 5\n".into(), "".into()));
    // An event that the floor refuses does not end the run.
    let mut octets = vec![0; 16];
    octets[0] = 0x30;
    assert_eq!(printed(&octets), ("0 no 5\nquiet no 5\n".into(), "0 no 5\n".into()));
    octets[0] = 0;
    assert_eq!(printed(&octets).0, "0 0 1 1 0 0 0\nquiet 0 0\n");
    // A frame that cannot be taken apart does, and its line is the last: a cut one, an unknown
    // kind, a stray field, a long text.
    let heads: [&[u8]; 4] = [&[0], &[0xF0], &[0x30, 0xFF], &[0x20, 0, 33]];
    for (refusal, head) in heads.iter().enumerate() {
        let mut octets = octets.clone();
        octets.extend(*head);
        octets.resize(if refusal == 0 { 31 } else { 32 }, 0);
        let (ours, plain) = printed(&octets);
        assert_eq!(ours, plain);
        assert_eq!(ours, format!("0 0 1 1 0 0 0\n1 no {}\n", refusal + 1));
    }
}
