//! Reads frames from standard input and prints the run as `plain` does. At the end of the input the
//! floor is run until it is quiet, and one line more is printed: `quiet`, the number of steps, and
//! how many messages are then held; or `quiet no 5` where no floor is started. A refusal that ends
//! the run, 1 to 4, has the last line.

use std::io;
use std::process::ExitCode;

use plain::run::{closing, status};

fn main() -> ExitCode {
    status("closing", closing(io::stdin().lock(), io::stdout().lock()))
}
