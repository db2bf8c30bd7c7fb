//! The command, as it is called: what it prints, and its exit status.

use std::fs;
use std::path::PathBuf;
use std::process::{Command, Output};

/// A file of the test's own, with this text.
fn site(name: &str, text: &str) -> PathBuf {
    let path = PathBuf::from(env!("CARGO_TARGET_TMPDIR")).join(name);
    fs::write(&path, text).expect("the folder for the tests' files can be written");
    path
}

fn totals(files: &[&PathBuf]) -> Output {
    let command = Command::new(env!("CARGO_BIN_EXE_totals")).args(files).output();
    command.expect("the command is built")
}

fn printed(output: &Output) -> String {
    String::from_utf8(output.stdout.clone()).expect("the command prints text")
}

fn complained(output: &Output) -> String {
    String::from_utf8(output.stderr.clone()).expect("the command complains in text")
}

#[test]
fn sites_are_joined_as_counted() {
    let a = site("joined_a", "# monday\n0 4 6\n1 6 4 # quiet\n\n");
    let b = site("joined_b", "0 1 0\n");
    let output = totals(&[&a, &b]);
    assert_eq!(printed(&output), "received 11\npassed 10\nratio 10/11\n");
    assert!(output.status.success());
}

#[test]
fn nothing_received_is_none() {
    let output = totals(&[&site("none", "3 0 12\n")]);
    assert_eq!(printed(&output), "received 0\npassed 12\nratio none\n");
    assert!(output.status.success());
}

#[test]
fn a_bad_line_is_named() {
    let good = site("bad_good", "0 1 1\n");
    for (name, text, mistake) in [
        ("bad_two", "0 1 1\n0 1\n", "2: three numbers are wanted, cart received passed: 0 1"),
        ("bad_four", "0 1 1 1\n", "1: three numbers are wanted, cart received passed: 0 1 1 1"),
        ("bad_word", "\n0 one 1\n", "2: not a number: one"),
        ("bad_sign", "0 +1 1\n", "1: not a number: +1"),
        ("bad_size", "0 1 4294967296\n", "1: more than 4294967295: 4294967296"),
    ] {
        let bad = site(name, text);
        let output = totals(&[&good, &bad]);
        assert_eq!(complained(&output), format!("{}:{mistake}\n", bad.display()));
        assert_eq!(printed(&output), "");
        assert!(!output.status.success());
    }
}

#[test]
fn a_list_of_4097_is_refused() {
    let longest = site("longest", &"0 1 0\n".repeat(4096));
    assert!(totals(&[&longest]).status.success());
    let long = site("long", &"0 1 0\n".repeat(4097));
    let output = totals(&[&longest, &long]);
    assert!(complained(&output).contains("refusal 22"));
    assert!(!output.status.success());
}

#[test]
fn a_missing_file_and_no_file_fail() {
    let missing = PathBuf::from(env!("CARGO_TARGET_TMPDIR")).join("missing");
    assert!(complained(&totals(&[&missing])).starts_with(&format!("{}: ", missing.display())));
    assert!(!totals(&[&missing]).status.success());
    assert!(!totals(&[]).status.success());
}
