//! Reads frames from standard input, gives them to a floor and to the plain lists, and prints for
//! each accepted radio step the index, and initiator and number of the list's head.

use std::io;
use std::process::ExitCode;

use plain::run::status;
use plain::training::training;

fn main() -> ExitCode {
    status("training", training(io::stdin().lock(), io::stdout().lock()))
}
