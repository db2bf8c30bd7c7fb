//! Every stored run, octet for octet.

use std::fs;
use std::io::{self, Read, Write};
use std::path::{Path, PathBuf};
use std::process::{Command, Stdio};

/// The crate that has the stored runs, seen from this package: the frames of each in `data`, and in
/// `stdout` what they print, each under a line with the name of its frames.
const RUNS: &str = "../../crates/runs";

struct Stored {
    name: String,
    frames: Vec<u8>,
    printed: Vec<u8>,
}

fn stored_runs() -> Vec<Stored> {
    let folder = Path::new(env!("CARGO_MANIFEST_DIR")).join(RUNS);
    let stdout = fs::read_to_string(folder.join("stdout")).expect("stdout of the crate runs");
    let mut runs: Vec<Stored> = Vec::new();
    for line in stdout.split_inclusive('\n') {
        let name = line.trim_end();
        if name.ends_with(".frames") {
            let frames = fs::read(folder.join("data").join(name)).expect(name);
            runs.push(Stored { name: name.into(), frames, printed: Vec::new() });
        } else {
            runs.last_mut().expect("a name").printed.extend(line.as_bytes());
        }
    }
    let files = fs::read_dir(folder.join("data")).unwrap().count();
    assert!(files > 0 && runs.len() == files, "{} runs of {files} files", runs.len());
    runs
}

/// Says where two printed runs part, since a whole run is too long to print.
fn assert_same(run: &Stored, printed: &[u8]) {
    let wanted = run.printed.as_slice();
    if printed == wanted {
        return;
    }
    let lines = |octets: &[u8]| -> Vec<String> {
        octets.split(|octet| *octet == b'\n').map(|l| String::from_utf8_lossy(l).into()).collect()
    };
    let (printed, wanted) = (lines(printed), lines(wanted));
    let at = printed.iter().zip(&wanted).take_while(|(a, b)| a == b).count();
    panic!("{}: line {at}: {:?}, not {:?}", run.name, printed.get(at), wanted.get(at));
}

/// What a program prints.
fn printed(program: &str, frames: &[u8]) -> Vec<u8> {
    let frames = frames.to_vec();
    let mut program =
        Command::new(program).stdin(Stdio::piped()).stdout(Stdio::piped()).spawn().unwrap();
    let mut input = program.stdin.take().unwrap();
    // The program may end before it has read all: refusals 1 to 4 end a run.
    let writer = std::thread::spawn(move || drop(input.write_all(&frames)));
    let output = program.wait_with_output().unwrap();
    writer.join().unwrap();
    assert!(output.status.success());
    output.stdout
}

#[test]
fn the_program_prints_every_stored_run() {
    for run in stored_runs() {
        assert_same(&run, &printed(env!("CARGO_BIN_EXE_plain"), &run.frames));
    }
}

/// The program that a stored run is of, by the beginning of its name.
fn program_of(name: &str) -> &'static str {
    match name.split_once('.') {
        Some(("kit", _)) => env!("CARGO_BIN_EXE_demo"),
        Some(("lists", _)) => env!("CARGO_BIN_EXE_training"),
        _ => env!("CARGO_BIN_EXE_plain"),
    }
}

/// The runs of `data` that have their output beside the frames, or those of the folder that
/// STORED_RUNS names.
#[test]
fn the_programs_print_the_runs_of_each_product() {
    let data = Path::new(env!("CARGO_MANIFEST_DIR")).join("tests/data");
    let folder = std::env::var_os("STORED_RUNS").map_or(data, PathBuf::from);
    let mut runs = 0;
    for path in fs::read_dir(&folder).unwrap().map(|entry| entry.unwrap().path()) {
        if path.extension().is_none_or(|found| found != "out") {
            continue;
        }
        let name = path.file_stem().unwrap().to_string_lossy().into_owned();
        let frames = fs::read(path.with_extension("frames")).unwrap();
        let run = Stored { name, frames, printed: fs::read(&path).unwrap() };
        assert_same(&run, &printed(program_of(&run.name), &run.frames));
        runs += 1;
    }
    assert!(runs > 0, "{}: no run", folder.display());
}

/// Lends its octets in pieces of a fixed size, with an interruption before each.
struct Pieces<'a> {
    octets: &'a [u8],
    size: usize,
    interrupted: bool,
}

impl Read for Pieces<'_> {
    fn read(&mut self, buffer: &mut [u8]) -> io::Result<usize> {
        self.interrupted = !self.interrupted;
        if self.interrupted {
            return Err(io::ErrorKind::Interrupted.into());
        }
        let size = self.size.min(buffer.len()).min(self.octets.len());
        let (piece, rest) = self.octets.split_at(size);
        buffer[..size].copy_from_slice(piece);
        self.octets = rest;
        Ok(size)
    }
}

#[test]
fn training_prints_the_receipts_of_the_run() {
    for run in stored_runs() {
        let (mut whole, mut trained) = (Vec::new(), Vec::new());
        plain::run::run(&run.frames[..], &mut whole).unwrap();
        for size in [1, 17, 1000, 1 << 20] {
            let pieces = Pieces { octets: &run.frames, size, interrupted: false };
            trained.clear();
            plain::training::training(pieces, &mut trained).unwrap();
            // Of each line with kind 4: index, initiator and number.
            let lines = String::from_utf8_lossy(&whole);
            let fields = lines.lines().map(|line| line.split(' ').collect::<Vec<_>>());
            let radio = fields.filter(|fields| fields[1] == "4");
            let wanted: String = radio.map(|f| format!("{} {} {}\n", f[0], f[2], f[3])).collect();
            assert!(trained == wanted.as_bytes(), "{}", run.name);
        }
    }
}

#[test]
fn pieces_of_any_size_make_no_difference() {
    for run in stored_runs() {
        for size in [1, 2, 7, 15, 16, 17, 33, 48, 1000, 1 << 20] {
            let mut printed = Vec::new();
            let pieces = Pieces { octets: &run.frames, size, interrupted: false };
            plain::run::run(pieces, &mut printed).unwrap();
            assert_same(&run, &printed);
        }
    }
}
