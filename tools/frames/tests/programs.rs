//! The programs as they are called.

mod common;

use std::fs;
use std::path::{Path, PathBuf};
use std::process::{Command, Output};

use common::{frames, path, text};

#[test]
fn gen_show_and_script() {
    let wishes = ["--stations", "3", "--carts", "9", "--held", "5", "--lines", "20", "--bad", "7"];
    let stream = frames(&[&["gen", "42", "5000"], &wishes[..]].concat(), b"");
    assert!(stream.status.success());
    assert!(text(&stream.stderr).starts_with("5000 frames, "), "{}", text(&stream.stderr));
    let script = frames(&["show"], &stream.stdout);
    assert_eq!(text(&script.stdout).lines().count(), 5000);
    assert_eq!(text(&script.stdout).lines().next(), Some("start 3 9"));
    let again = frames(&["script"], &script.stdout);
    assert_eq!(again.stdout, stream.stdout);
}

#[test]
fn gen_for_the_kit() {
    let stream = frames(&["gen", "1", "100", "--kit"], b"");
    let script = frames(&["show"], &stream.stdout);
    assert_eq!(text(&script.stdout).lines().next(), Some("start 4 8"));
    let output = frames(&["gen", "1", "100", "--kit", "--stations", "5"], b"");
    assert_eq!(text(&output.stderr), "--stations: \"5\" is not a number from 1 to 4\n");
}

#[test]
fn mistakes_are_named_and_have_status_1() {
    let output = frames(&["script"], b"start 2 1\n\nenter 0 99\n");
    assert_eq!(output.status.code(), Some(1));
    assert_eq!(text(&output.stderr), "line 3: cart: \"99\" is not a number from 0 to 63\n");
    assert!(output.stdout.is_empty());
    for words in [&["gen", "1"][..], &["gen", "1", "2", "--held"], &["gen", "1", "x"], &[]] {
        assert_eq!(frames(words, b"").status.code(), Some(1), "{words:?}");
    }
}

#[test]
fn a_script_that_is_no_text_is_named_by_its_line() {
    let output = frames(&["script"], b"start 2 1\nenter 0 0 # caf\xE9\n");
    assert_eq!(output.status.code(), Some(1));
    assert_eq!(text(&output.stderr), "line 2: the script is not UTF-8\n");
    assert!(output.stdout.is_empty());
}

#[test]
fn what_is_said_of_a_run_is_whole_or_nothing() {
    let whole = fs::read(path("../../examples/hand-off.frames")).unwrap();
    for command in ["tell", "received", "picture", "page"] {
        let output = frames(&[command], &whole);
        assert!(output.status.success(), "{command}: {}", text(&output.stderr));
        assert!(!output.stdout.is_empty() && output.stderr.is_empty(), "{command}");
        // Read from a file it is the same.
        let file = path("../../examples/hand-off.frames");
        assert_eq!(frames(&[command, file.to_str().unwrap()], b"").stdout, output.stdout);

        let output = frames(&[command], &whole[..whole.len() - 3]);
        assert_eq!((output.status.code(), output.stdout.len()), (Some(1), 0), "{command}");
        let said = text(&output.stderr);
        assert!(said.starts_with("octet 306, frame 19: cut short, 13 of 16"), "{command}: {said}");

        let output = frames(&[command, "not-there.frames"], b"");
        assert_eq!((output.status.code(), output.stdout.len()), (Some(1), 0), "{command}");
        let said = text(&output.stderr);
        assert!(said.starts_with("not-there.frames: No such file"), "{command}: {said}");

        let output = frames(&[command, "--kitt"], b"");
        assert_eq!((output.status.code(), output.stdout.len()), (Some(1), 0), "{command}");
        assert!(text(&output.stderr).starts_with("--kitt: not understood\n"), "{command}");
    }
}

#[test]
fn the_kit_has_its_own_limits() {
    let script = frames(&["script"], b"start 5 1\n").stdout;
    let said = |words: &[&str]| text(&frames(words, &script).stdout).to_string();
    assert!(said(&["tell"]).starts_with("0 0 5 1 0 0 0  The floor starts with 5 stations"));
    assert!(said(&["tell", "--kit"]).starts_with("0 no 7  Refused (7, "));
}

/// Runs `fuzz` in a folder of its own, which is answered beside the output.
fn fuzz(name: &str, words: &[&str]) -> (Output, PathBuf) {
    let folder = Path::new(env!("CARGO_TARGET_TMPDIR")).join(name);
    fs::create_dir_all(&folder).unwrap();
    let mut program = Command::new(env!("CARGO_BIN_EXE_fuzz"));
    (program.args(words).current_dir(&folder).output().unwrap(), folder)
}

#[test]
fn fuzz_finds_no_difference_between_a_program_and_itself() {
    let (output, _) = fuzz("same", &["1", "cat", "cat", "3"]);
    assert_eq!(output.status.code(), Some(0), "{}", text(&output.stdout));
    assert!(text(&output.stdout).contains("no difference"));
}

#[test]
fn fuzz_keeps_the_stream_on_which_two_programs_differ() {
    let (output, folder) = fuzz("different", &["60", "cat", "true", "4"]);
    assert_eq!(output.status.code(), Some(1));
    // The shortest stream that tells them apart has one frame at most. With this seed the first
    // stream is not damaged: octets behind a frame that is refused would be kept.
    let kept = fs::read(folder.join("fuzz-difference.frames")).unwrap();
    assert!((1..=48).contains(&kept.len()), "{} octets", kept.len());
    assert!(text(&output.stdout).contains("true prints nothing"), "{}", text(&output.stdout));
}
