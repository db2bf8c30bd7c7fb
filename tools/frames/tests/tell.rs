//! Runs as sentences.

mod common;

use std::collections::BTreeSet;
use std::fs;

use common::{path, stored, Stored};
use frames::cases::case;
use frames::generate::{stream, Wishes};
use frames::script::script;
use frames::tell::tell;
use plain::run::run_on;
use plain::{Floor, Limits};

/// The runs whose sentences are stored beside these tests.
const TOLD: [&str; 12] = [
    "before_start",
    "floor.retire",
    "hand-off",
    "k1",
    "kit.groups",
    "kit.limits",
    "kit.retire_late",
    "lists_in_queue_order",
    "refusals",
    "rolls_away",
    "second_start",
    "unsteady_head",
];

#[test]
fn the_sentences_of_stored_runs() {
    let runs = stored();
    for name in TOLD {
        let run = runs.iter().find(|run| run.name == name).unwrap();
        let said = tell(&run.octets, run.limits).unwrap().to_string();
        let wanted = fs::read_to_string(path(&format!("tests/data/tell/{name}.tell"))).unwrap();
        for (said, wanted) in said.lines().zip(wanted.lines()) {
            assert_eq!(said, wanted, "{name}");
        }
        assert_eq!(said.len(), wanted.len(), "{name}");
    }
}

/// What `floor` prints, without the texts of radio steps.
fn printed(run: &Stored) -> Vec<String> {
    let mut lines = Vec::new();
    let mut floor = Box::new(Floor::within(run.limits));
    run_on(&mut floor, &run.octets[..], &mut lines).unwrap();
    let lines = String::from_utf8(lines).unwrap();
    let fields = |line: &str| line.split(' ').take(7).collect::<Vec<_>>().join(" ");
    lines.lines().map(fields).collect()
}

#[test]
fn the_numbers_are_those_that_are_printed() {
    let mut told = 0;
    for run in stored() {
        let Ok(said) = tell(&run.octets, run.limits) else { continue };
        let said = said.to_string();
        let printed = printed(&run);
        assert_eq!(said.lines().count(), printed.len(), "{}", run.name);
        for (line, printed) in said.lines().zip(&printed) {
            let (numbers, sentence) = line.split_once("  ").unwrap();
            assert_eq!(numbers, printed, "{}", run.name);
            let sentence = sentence.trim_start();
            assert!(sentence.starts_with(char::is_uppercase), "{}: {line}", run.name);
            assert!(sentence.ends_with('.'), "{}: {line}", run.name);
            assert_eq!(sentence.starts_with("Refused ("), numbers.contains("no"), "{line}");
        }
        told += 1;
    }
    assert!(told > 45, "{told} runs");
}

#[test]
fn every_refusal_that_a_frame_can_meet_has_its_own_words() {
    let mut met = BTreeSet::new();
    let mut look = |said: String| {
        for line in said.lines().filter(|line| line.contains("Refused (")) {
            let number = line.split("Refused (").nth(1).unwrap().split(',').next().unwrap();
            met.insert(number.parse::<u8>().unwrap());
            assert!(!line.contains("it cannot be done now"), "{line}");
        }
    };
    for run in stored() {
        tell(&run.octets, run.limits).into_iter().for_each(|said| look(said.to_string()));
    }
    for (seed, (stations, carts)) in [(1, 2), (3, 5), (16, 64)].into_iter().enumerate() {
        let wishes = Wishes {
            stations,
            carts,
            held: 30,
            bad: 30,
            groups: 20,
            long: 40,
            retire: 10,
            ..Wishes::default()
        };
        let octets = stream(seed as u64, 5_000, wishes).0;
        look(tell(&octets, Limits::FLOOR).unwrap().to_string());
    }
    // The last number of the kit; that of the floor no run reaches.
    look(tell(&case("late_66000").unwrap(), Limits::KIT).unwrap().to_string());
    // All but those of the frame itself, which end a run, and those of the library and the lists.
    let wanted = (5..=20).chain(24..=27).chain([29]);
    assert_eq!(met, wanted.collect());
}

/// The last sentence of a script's run.
fn last_sentence(text: &str) -> String {
    let lines = tell(&script(text).unwrap(), Limits::FLOOR).unwrap().to_string();
    lines.lines().last().unwrap().split_once("  ").unwrap().1.trim_start().to_string()
}

#[test]
fn a_correction_and_its_receipt() {
    let said = last_sentence;
    let mut run = "start 2 3\nenter 1 0\nenter 1 1\nsend 1 0 A1\nwire 1 1\nradio 1 0\n".to_string();
    assert_eq!(
        said(&run),
        "Cart 0 at station 1 receives correction 0 of station 1 (a1). \
         Station 1 acknowledges it to itself."
    );
    run += &format!("long 0 0,1 {}\n", "0F".repeat(512));
    assert_eq!(
        said(&run),
        "Station 0 sends correction 0 (0f0f0f0f0f0f0f0f\u{2026} 512 octets) to carts 0 and 1; \
         it goes out to 2 stations."
    );
    run += "steady 0 0\nwire 0 1\n";
    assert_eq!(
        said(&run),
        "Correction 0 of station 0 reaches station 1, where carts 0 and 1 wait for it (place 1)."
    );
    run += "radio 1 1\n";
    assert!(said(&run).ends_with("keeps the acknowledgement until others here have it too."));
    assert!(said(&(run.clone() + "radio 1 1\n")).ends_with(
        "first comes correction 0 of station 0, for cart 0. \
         Cart 0 is not steady: wait for that, or move it away."
    ));
    assert!(said(&(run.clone() + "move 0 0\nradio 1 1\n")).ends_with(
        "Finish the hand-off of cart 0 first \
         (wire 0 to 1 until it is handed over, then wire 1 to 0 until it arrives)."
    ));
}

/// The advice is that of docs/SERVICE.md.
#[test]
fn a_retirement_that_is_refused() {
    let run = "start 2 3\nenter 1 0\nenter 1 1\nsend 0 0,1 A1\nwire 0 1\n".to_string();
    let named =
        "Refused (29, a held correction names the cart): cart 0 is named by correction 0 of \
                 station 0. ";
    let refused = |more: &str, advice: &str| {
        assert_eq!(last_sentence(&format!("{run}{more}retire 0\n")), format!("{named}{advice}"));
    };
    refused(
        "",
        "Carts 0 and 1 have yet to receive: let them receive, then run the lines to the last delete.",
    );
    refused(
        "radio 1 1\nsteady 0 0\n",
        "Cart 0 has yet to receive: tell cart 0 steady when it is, let it receive, \
         then run the lines to the last delete.",
    );
    // That it has received is not enough.
    refused(
        "radio 1 0\n",
        "Cart 1 has yet to receive: let it receive, then run the lines to the last delete.",
    );
    let received = "radio 1 0\nradio 1 1\n";
    refused(received, "All named carts have received: run the lines to the last delete.");
    let leaving = last_sentence(&format!("{run}{received}move 0 0\nretire 0\n"));
    assert_eq!(
        leaving,
        "Refused (19, the cart is leaving or travelling): cart 0 is leaving station 1. Finish its \
         hand-off first (wire 0 to 1 until it is handed over, then wire 1 to 0 until it arrives)."
    );
    assert!(last_sentence(&format!("{run}retire 2\n"))
        .ends_with("cart 2 is not on the floor. Nothing needs to be done, its number is free."));
    assert!(last_sentence(&format!("{run}move 2 0\n")).ends_with("Let it enter first."));
}

#[test]
fn a_retirement_may_end_groups() {
    let run = "start 1 2\nenter 0 0\nenter 0 1\ngroup 3 0\ngroup 5 0,1\nretire 0\n";
    assert_eq!(
        last_sentence(run),
        "Cart 0 goes back to the factory, and leaves every group; \
         group 3 has no member left and is not defined any more."
    );
    assert!(last_sentence(&format!("{run}retire 1\n")).contains("; group 5 has no member left"));
    assert!(last_sentence(&format!("{run}enter 0 0\nretire 0\n")).ends_with("every group."));
}
