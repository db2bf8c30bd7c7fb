//! The stored runs: files of frames, and what they print.

use std::fmt::Write;
use std::fs;

/// A file of the repository.
pub fn path(name: &str) -> String {
    format!("{}/../../{name}", env!("CARGO_MANIFEST_DIR"))
}

/// All stored runs of a crate, each under its name, print what the crate's `stdout` has.
pub fn all(folder: &str, run: fn(&[u8]) -> String) {
    let args = fs::read_to_string(path(&format!("crates/{folder}/args"))).unwrap();
    let expected = fs::read_to_string(path(&format!("crates/{folder}/stdout"))).unwrap();
    let mut printed = String::new();
    for name in args.lines() {
        let octets = fs::read(path(&format!("crates/{folder}/data/{name}"))).unwrap();
        writeln!(printed, "{name}").unwrap();
        printed += &run(&octets);
        assert!(
            expected.starts_with(&printed),
            "the stored run {name} of {folder} prints something else"
        );
    }
    assert!(
        !args.is_empty() && printed == expected,
        "{folder} has stored runs that are not in its args"
    );
}
