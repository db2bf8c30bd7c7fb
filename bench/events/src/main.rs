//! The proved events beside a plain floor.
//!
//! `events trials SECONDS [SEED]` tries both on damaged floors with any arguments: the answers, the lent memory after a refusal and the floor
//! after an accepted event. A difference is printed with its seed and its case, and ends the program with 1.
//! `events time` measures both in turns in one run, `events time steps` without the whole events.

mod behind;
mod choose;
mod damage;
mod event;
#[cfg(test)]
mod last_numbers;
mod proved;
mod reach;
#[cfg(test)]
mod statuses;
#[cfg(test)]
mod stored;
mod timing;
mod trials;

use std::process::ExitCode;

const USAGE: &str = "events trials SECONDS [SEED] | events time [steps]";

fn number(word: Option<&String>) -> Option<u64> {
    word.and_then(|word| word.parse().ok())
}

fn main() -> ExitCode {
    let words: Vec<String> = std::env::args().skip(1).collect();
    let done = match words.first().map(String::as_str) {
        Some("trials") => {
            let seconds = number(words.get(1)).unwrap_or(10);
            let seed = number(words.get(2)).unwrap_or(1);
            trials::run(seconds, seed).map_err(|difference| format!("seed {seed}, {difference}"))
        }
        Some("time") => timing::run(words.get(1).is_some_and(|word| word == "steps")),
        _ => Err(USAGE.into()),
    };
    match done {
        Ok(()) => ExitCode::SUCCESS,
        Err(message) => {
            eprintln!("{message}");
            ExitCode::FAILURE
        }
    }
}
