//! Reads frames from standard input and prints the run.

use std::io;
use std::process::ExitCode;

use plain::run::{run, status};

fn main() -> ExitCode {
    status("plain", run(io::stdin().lock(), io::stdout().lock()))
}
