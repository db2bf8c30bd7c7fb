//! Times programs that read a file of frames from standard input, in turns, and each piece of the file by
//! itself: a piece is what a program does between two readings, the same in each of its runs, so the
//! least time of each piece, summed, is a run that nothing else disturbed.
//!
//!     pieces LIBRARY FRAMES ROUNDS PROGRAM...
//!
//! LIBRARY is the one that this package builds. What is printed is in nanoseconds for each frame, a
//! frame being a line of output; and each program's throughput as a part of the last one's.

use std::env;
use std::error::Error;
use std::fs::File;
use std::io::Read;
use std::process::{Command, Stdio};

use shared::progress::Progress;

/// The times of one run's pieces.
fn run(library: &str, frames: &str, program: &str) -> Result<Vec<u64>, Box<dyn Error>> {
    let mut child = Command::new(program)
        .env("LD_PRELOAD", library)
        .stdin(File::open(frames)?)
        .stdout(Stdio::null())
        .stderr(Stdio::piped())
        .spawn()?;
    let mut octets = Vec::new();
    child.stderr.take().ok_or("no standard error")?.read_to_end(&mut octets)?;
    if !child.wait()?.success() || octets.is_empty() || octets.len() % 8 != 0 {
        return Err(format!("{program} did not end as it should").into());
    }
    let times = octets.chunks_exact(8).map(|time| u64::from_le_bytes(time.try_into().unwrap()));
    Ok(times.collect())
}

/// How many lines a program prints for the frames.
fn lines(frames: &str, program: &str) -> Result<usize, Box<dyn Error>> {
    let output = Command::new(program).stdin(File::open(frames)?).output()?;
    Ok(output.stdout.iter().filter(|octet| **octet == b'\n').count())
}

/// The least of each piece.
fn keep_least(least: &mut Vec<u64>, times: &[u64]) -> Result<(), Box<dyn Error>> {
    if least.is_empty() {
        least.extend(times);
    }
    if least.len() != times.len() {
        return Err("two runs of one program have not as many pieces".into());
    }
    for (kept, time) in least.iter_mut().zip(times) {
        *kept = (*kept).min(*time);
    }
    Ok(())
}

fn main() -> Result<(), Box<dyn Error>> {
    let words: Vec<String> = env::args().skip(1).collect();
    let [library, frames, rounds, programs @ ..] = words.as_slice() else {
        return Err("pieces LIBRARY FRAMES ROUNDS PROGRAM...".into());
    };
    let Some(last) = programs.last() else { return Err("no program".into()) };
    let count = lines(frames, last)? as f64;
    let mut least = vec![Vec::new(); programs.len()];
    let rounds = rounds.parse::<usize>()?;
    let mut progress = Progress::new("pieces");
    for round in 0..rounds {
        progress.of(round, rounds, "rounds");
        for turn in 0..programs.len() {
            // Who goes first changes from round to round.
            let k = if round % 2 == 0 { turn } else { programs.len() - 1 - turn };
            keep_least(&mut least[k], &run(library, frames, &programs[k])?)?;
        }
    }
    drop(progress);
    let sums: Vec<u64> = least.iter().map(|times| times.iter().sum()).collect();
    let whole = *sums.last().unwrap() as f64;
    for (program, sum) in programs.iter().zip(sums) {
        let sum = sum as f64;
        println!("  {:.2} ns, throughput {:.3}: {program}", sum / count, whole / sum);
    }
    Ok(())
}

#[cfg(test)]
mod tests {
    use super::keep_least;

    #[test]
    fn the_least_of_each_piece_is_kept() {
        let mut least = Vec::new();
        keep_least(&mut least, &[3, 5, 7]).unwrap();
        keep_least(&mut least, &[4, 2, 7]).unwrap();
        assert_eq!(least, [3, 2, 7]);
        assert!(keep_least(&mut least, &[1, 1]).is_err());
        assert_eq!(least, [3, 2, 7]);
    }
}
