//! The demonstration kit: reads frames from standard input and prints the run as `plain` does, with
//! the kit's limits.

use std::io;
use std::process::ExitCode;

use plain::run::{demo, status};

fn main() -> ExitCode {
    status("demo", demo(io::stdin().lock(), io::stdout().lock()))
}
