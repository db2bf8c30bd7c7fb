//! The stored calls that run a floor until it is quiet, or read a text, by the proved calls.

use crate::event::Event;
use crate::proved::{self, WORDS};
use plain::run::run_on;
use plain::words::Words;
use plain::Floor;
use shared::places::{in_order, scattered};
use std::fs;
use std::path::{Path, PathBuf};

/// Where plain's tests have their stored calls, seen from this package.
const CALLS: &str = "../plain/tests/data";

/// Octets as a line has them.
fn digits(octets: &[u8]) -> String {
    let digits: String = octets.iter().map(|octet| format!("{octet:02x}")).collect();
    if digits.is_empty() {
        "-".into()
    } else {
        digits
    }
}

/// The line of a call that reads a text, as plain's tests say it of theirs.
fn read(w: &mut Words, initiator: u64, number: u64) -> String {
    let (before, mut out) = (w.clone(), [0; WORDS]);
    proved::text(w, initiator, number, &mut out);
    assert!(*w == before, "a reading call changed lent memory");
    let [refusal, stored, at, octets, ..] = out;
    let from = if stored == 1 { &w.store } else { &w.texts };
    let text = digits(&from[at as usize..][..octets as usize]);
    format!("read {initiator} {number} = {refusal} {text}")
}

/// The line of a call with a buffer of so many octets.
fn quiet(w: &mut Words, length: usize) -> String {
    let (before, mut buffer, mut out) = (w.clone(), vec![0; length], [0; WORDS]);
    proved::call(w, &Event::Quiet, &mut buffer, &mut out);
    let end = buffer.iter().rposition(|octet| *octet != 0).map_or(0, |last| last + 1);
    if out[0] != 0 {
        assert!(*w == before && end == 0, "a refusal changed lent memory");
        return format!("quiet {length} = no {}", out[0]);
    }
    let text = digits(&buffer[..end]);
    format!("quiet {length} = ok {} {} {text}", out[1], Floor::from_words(w).held())
}

/// The calls of one file, each on what the one before it left.
fn check(path: &Path, mut w: Words) {
    for line in fs::read_to_string(path).unwrap().lines() {
        let numbers: Vec<u64> =
            line.split(' ').skip(1).map_while(|word| word.parse().ok()).collect();
        let said = match numbers[..] {
            [length] => quiet(&mut w, length as usize),
            [initiator, number] => read(&mut w, initiator, number),
            _ => panic!("{line} is no call"),
        };
        assert_eq!(said, line, "{}", path.display());
    }
}

/// Every stored call on the floor that its run leaves: those of plain's tests, or of the folder that QUIET_RUNS names. A name that begins with `kit.`
/// is of the kit, whose parts plain does not make.
#[test]
fn the_stored_calls() {
    let data = Path::new(env!("CARGO_MANIFEST_DIR")).join(CALLS);
    let folder = std::env::var_os("QUIET_RUNS").map_or(data, PathBuf::from);
    let mut files = 0;
    for entry in fs::read_dir(folder).unwrap() {
        let path = entry.unwrap().path();
        let of_kit = path.file_name().unwrap().to_string_lossy().starts_with("kit.");
        if of_kit || path.extension().is_none_or(|ending| ending != "quiet") {
            continue;
        }
        let frames = fs::read(path.with_extension("frames")).unwrap();
        let mut floor = Floor::new();
        run_on(&mut floor, &frames[..], std::io::sink()).unwrap();
        check(&path, floor.words(in_order));
        check(&path, floor.words(scattered));
        files += 1;
    }
    assert!(files > 0);
}
