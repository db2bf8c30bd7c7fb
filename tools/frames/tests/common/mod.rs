//! What the tests share: the stored runs, and the program `frames` as it is called.
// Each test is a program of its own, and not every one needs all of this.
#![allow(dead_code)]

use std::fs;
use std::io::Write;
use std::path::{Path, PathBuf};
use std::process::{Command, Output, Stdio};

use plain::Limits;

/// A file of this package or beside it.
pub fn path(name: &str) -> PathBuf {
    Path::new(env!("CARGO_MANIFEST_DIR")).join(name)
}

/// A stored run.
pub struct Stored {
    pub name: String,
    pub octets: Vec<u8>,
    pub limits: Limits,
}

/// The stored runs that are not too long to be drawn, those of `floor` and of the kit.
pub fn stored() -> Vec<Stored> {
    let folders = ["../../crates/runs/data", "../../bench/plain/tests/data", "../../examples"];
    let mut runs = Vec::new();
    for file in folders.iter().flat_map(|folder| fs::read_dir(path(folder)).unwrap()) {
        let file = file.unwrap().path();
        if file.extension().is_none_or(|extension| extension != "frames") {
            continue;
        }
        let name = file.file_stem().unwrap().to_str().unwrap().to_string();
        let limits = if name.starts_with("kit.") { Limits::KIT } else { Limits::FLOOR };
        let octets = fs::read(&file).unwrap();
        if octets.len() < 100_000 {
            runs.push(Stored { name, octets, limits });
        }
    }
    assert!(runs.len() > 50, "{} stored runs", runs.len());
    runs
}

/// Calls `frames`.
pub fn frames(words: &[&str], input: &[u8]) -> Output {
    let mut program = Command::new(env!("CARGO_BIN_EXE_frames"))
        .args(words)
        .stdin(Stdio::piped())
        .stdout(Stdio::piped())
        .stderr(Stdio::piped())
        .spawn()
        .unwrap();
    let mut lent = program.stdin.take().unwrap();
    let input = input.to_vec();
    let writer = std::thread::spawn(move || drop(lent.write_all(&input)));
    let output = program.wait_with_output().unwrap();
    writer.join().unwrap();
    output
}

pub fn text(octets: &[u8]) -> &str {
    std::str::from_utf8(octets).unwrap()
}
