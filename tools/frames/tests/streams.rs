//! Scripts and generated streams.

use std::fs;
use std::path::Path;

use frames::cases::{case, CASES};
use frames::damage::any_stream;
use frames::generate::{give, stream, Wishes};
use frames::random::Random;
use frames::script::{script, show};
use plain::frames::{Event, Reader, Taken};
use plain::training::{Both, Handed};
use plain::{Floor, Step};

/// Where the frames of the stored runs lie, seen from this package.
const RUNS: &str = "../../crates/runs/data";

const K1: &str = "
# K1: a cart moves to the initiator before it has the message.
start 2 1
enter 0 0
send 1 0 A1
wire 1 1
move 0 1
wire 1 0
radio 0 0   # 16: the cart is leaving
wire 1 0
wire 0 1
radio 1 0
wire 1 1
wire 1 0
wire 1 1
";

/// The frames of a stored run, if it is stored.
fn stored(name: &str) -> Option<Vec<u8>> {
    let folder = Path::new(env!("CARGO_MANIFEST_DIR")).join(RUNS);
    fs::read(folder.join(name).with_extension("frames")).ok()
}

#[test]
fn the_script_of_k1_gives_the_stored_frames() {
    assert_eq!(script(K1).unwrap(), stored("k1").expect("k1 among the stored runs"));
}

#[test]
fn the_frames_of_the_example_are_those_of_its_script() {
    let folder = Path::new(env!("CARGO_MANIFEST_DIR")).join("../../examples");
    let text = fs::read_to_string(folder.join("hand-off.txt")).unwrap();
    assert_eq!(script(&text).unwrap(), fs::read(folder.join("hand-off.frames")).unwrap());
    // `example` shows the script and the printed run line by line.
    assert_eq!(show(&script(&text).unwrap()).lines().count(), text.lines().count());
}

#[test]
fn the_runs_that_have_a_name_are_the_stored_ones() {
    for (name, _) in CASES {
        assert!(stored(name) == case(name), "{name} is not the stored run");
    }
    assert_eq!(case("another"), None);
}

#[test]
fn the_stored_random_run_of_a_full_floor() {
    let (octets, _) = stream(20, 4_000, Wishes { bad: 6, ..Wishes::default() });
    assert!(stored("random_16x64") == Some(octets));
}

#[test]
fn the_stored_random_run_with_groups() {
    let wishes = Wishes { stations: 3, carts: 12, groups: 80, bad: 8, ..Wishes::default() };
    let (octets, _) = stream(9, 1_500, wishes);
    assert!(stored("random_groups") == Some(octets));
}

#[test]
fn show_then_script_is_the_identity_on_generated_streams() {
    for seed in 0..20 {
        let carts = 1 + 3 * seed as u8;
        let wishes = Wishes { stations: 1 + seed as u8 % 16, carts, bad: 10, ..Wishes::default() };
        let (octets, _) = stream(seed, 2_000, wishes);
        assert_eq!(script(&show(&octets)).unwrap(), octets);
    }
}

#[test]
fn show_then_script_is_the_identity_on_damaged_streams() {
    let mut random = Random::new(1);
    for _ in 0..300 {
        let octets = any_stream(&mut random);
        assert_eq!(script(&show(&octets)).unwrap(), octets);
    }
}

/// The last refusal that an event can have.
const LAST_REFUSAL: usize = 29;

/// Gives a stream to a floor; answers the accepted and the refused events, the latter by number,
/// and the most messages held in the last tenth.
fn give_all(octets: &[u8], frames: usize) -> (usize, [usize; LAST_REFUSAL + 1], usize) {
    give_all_to(Floor::new(), octets, frames)
}

fn give_all_to(
    mut floor: Floor,
    octets: &[u8],
    frames: usize,
) -> (usize, [usize; LAST_REFUSAL + 1], usize) {
    let mut reader = Reader::new(octets);
    let (mut accepted, mut refused, mut held) = (0, [0; LAST_REFUSAL + 1], 0);
    for index in 0..frames {
        let Taken::Event(event) = reader.take() else { panic!("frame {index} is refused") };
        match give(&mut floor, &event) {
            Ok(_) => accepted += 1,
            Err(refusal) => refused[refusal.number() as usize] += 1,
        }
        if index >= frames - frames / 10 {
            held = held.max(floor.held());
        }
    }
    assert_eq!(reader.take(), Taken::End);
    (accepted, refused, held)
}

#[test]
fn generated_frames_are_all_taken_apart_and_mostly_accepted() {
    let (octets, counts) = stream(7, 20_000, Wishes::default());
    let (accepted, refused, _) = give_all(&octets, 20_000);
    println!("{accepted} of 20000 accepted");
    assert_eq!(refused[..5], [0; 5]);
    assert_eq!(accepted + refused.iter().sum::<usize>(), 20_000);
    assert_eq!(accepted as u64, counts.accepted);
    assert!(accepted > 19_500);
}

#[test]
fn without_bad_events_all_are_accepted() {
    for (stations, carts) in [(16, 64), (2, 2), (1, 3), (3, 1), (5, 40)] {
        let wishes = Wishes { stations, carts, bad: 0, ..Wishes::default() };
        let (octets, _) = stream(11, 20_000, wishes);
        assert_eq!(give_all(&octets, 20_000).0, 20_000);
    }
}

#[test]
fn streams_of_the_kit_keep_to_its_limits() {
    let wishes = Wishes { held: 8, lines: 30, bad: 0, ..Wishes::of_kit() };
    let (octets, _) = stream(12, 20_000, wishes);
    let (accepted, _, held) = give_all_to(Floor::kit(), &octets, 20_000);
    assert_eq!((accepted, held), (20_000, 8));
}

#[test]
fn streams_with_groups() {
    for (stations, carts) in [(16, 64), (2, 3), (1, 1)] {
        let wishes = Wishes { stations, carts, groups: 40, bad: 0, ..Wishes::default() };
        let (octets, _) = stream(13, 20_000, wishes);
        assert_eq!(give_all(&octets, 20_000).0, 20_000);
        let shown = show(&octets);
        let count = |word| shown.lines().filter(|line| line.starts_with(word)).count();
        let (defined, sends) = (count("group "), count("gsend "));
        assert!(defined > 10 && sends > 20, "{defined} groups, {sends} sends to them");
        let (octets, _) = stream(13, 20_000, Wishes { bad: 10, ..wishes });
        let refused = give_all(&octets, 20_000).1;
        assert!(refused[26] > 0, "{stations} stations, {carts} carts: no 26");
    }
}

#[test]
fn streams_with_long_texts() {
    for (stations, carts) in [(16, 64), (2, 3), (1, 1)] {
        let wishes = Wishes { stations, carts, held: 30, long: 60, bad: 0, ..Wishes::default() };
        let (octets, _) = stream(14, 20_000, wishes);
        assert_eq!(give_all(&octets, 20_000).0, 20_000);
        let long = show(&octets).lines().filter(|line| line.starts_with("long ")).count();
        assert!(long > 100, "{long} long texts");
        let (octets, _) = stream(14, 20_000, Wishes { bad: 10, ..wishes });
        let refused = give_all(&octets, 20_000).1;
        assert!(refused[27] > 0, "{stations} stations, {carts} carts: no 27");
    }
}

#[test]
fn streams_with_retirements() {
    for (stations, carts) in [(16, 64), (2, 3), (1, 1)] {
        let wishes =
            Wishes { stations, carts, held: 3, groups: 20, retire: 5, bad: 0, ..Wishes::default() };
        let (octets, _) = stream(15, 20_000, wishes);
        assert_eq!(give_all(&octets, 20_000).0, 20_000);
        let shown = show(&octets);
        let count = |word| shown.lines().filter(|line| line.starts_with(word)).count();
        let (retired, entered) = (count("retire "), count("enter "));
        assert!(retired > 10 && entered >= retired, "{retired} retired, {entered} entered");
        let (octets, _) = stream(15, 20_000, Wishes { bad: 10, ..wishes });
        let refused = give_all(&octets, 20_000).1;
        assert!(refused[29] > 0, "{stations} stations, {carts} carts: no 29");
    }
}

#[test]
fn the_head_of_the_plain_list_is_what_is_handed_over() {
    for (seed, (stations, carts)) in [(16, 64), (3, 5), (1, 2)].iter().enumerate() {
        let (stations, carts) = (*stations, *carts);
        let wishes = Wishes {
            stations,
            carts,
            held: 20,
            groups: 30,
            long: 30,
            retire: 5,
            bad: 5,
            ..Wishes::default()
        };
        let (octets, counts) = stream(seed as u64, 50_000, wishes);
        let (mut both, mut reader, mut handed) = (Both::new(), Reader::new(&octets), 0);
        while let Taken::Event(event) = reader.take() {
            if let Some(Handed { by_floor, by_lists, .. }) = both.give(&event) {
                assert_eq!(by_floor, by_lists);
                handed += 1;
            }
        }
        assert_eq!(handed, counts.receipts);
    }
}

#[test]
fn no_message_is_held_for_ever() {
    for (seed, (stations, carts)) in [(2, 2), (2, 5), (3, 6), (4, 30), (16, 64)].iter().enumerate()
    {
        let (stations, carts) = (*stations, *carts);
        let wishes = Wishes { stations, carts, held: 4, bad: 5, ..Wishes::default() };
        let (octets, counts) = stream(seed as u64, 100_000, wishes);
        let (_, refused, held) = give_all(&octets, 100_000);
        assert!(held < 32, "{stations} stations, {carts} carts: {held} held at the end");
        assert!(counts.sends > 500);
        // Random fields meet every refusal that this floor has.
        for number in [6, 10, 11, 15, 16, 17, 20, 24, 25] {
            assert!(refused[number] > 0, "{stations} stations, {carts} carts: no {number}");
        }
    }
}

#[test]
fn lists_go_in_deregister_steps_and_places_are_deep() {
    let (octets, _) = stream(3, 100_000, Wishes::default());
    let mut floor = Box::new(Floor::new());
    let mut reader = Reader::new(&octets);
    let (mut lists, mut deepest) = (0, 0);
    while let Taken::Event(event) = reader.take() {
        let Ok(step) = give(&mut floor, &event) else { continue };
        deepest = deepest.max(step.q);
        if let (Event::Wire { .. }, Step { a: 4, w, .. }) = (&event, step) {
            lists += w as usize - 1;
        }
    }
    assert!(lists > 100, "{lists} lists");
    assert!(deepest >= 5, "place {deepest}");
}

#[test]
fn the_seed_decides() {
    let one = stream(1, 3_000, Wishes::default()).0;
    assert_eq!(one, stream(1, 3_000, Wishes::default()).0);
    assert_ne!(one, stream(2, 3_000, Wishes::default()).0);
}
