//! Runs two programs on the same random and damaged streams until the time is over or their
//! outputs differ.

use std::fs::{self, File};
use std::io::{self, Read, Write};
use std::path::{Path, PathBuf};
use std::process::{Command, ExitCode, Stdio};
use std::sync::mpsc;
use std::thread;
use std::time::{Duration, Instant, SystemTime};

use frames::damage::{any_stream, borders};
use frames::random::Random;
use frames::script::show;
use shared::progress::Progress;

const USAGE: &str = "\
fuzz SECONDS PROGRAM_A PROGRAM_B [SEED]
    compares the outputs of two programs on random and damaged streams of frames; stops at the
    first difference (status 1) and keeps the stream in fuzz-difference.frames";

/// Where a stream on which the programs differ is kept.
const KEPT: &str = "fuzz-difference.frames";
/// A program that takes longer for one stream is stopped, and that is a difference.
const PATIENCE: Duration = Duration::from_secs(60);
/// How long a stream on which the programs differ is made shorter.
const SHORTENING: Duration = Duration::from_secs(20);

fn main() -> ExitCode {
    let words: Vec<String> = std::env::args().skip(1).collect();
    let words: Vec<&str> = words.iter().map(String::as_str).collect();
    let (seconds, a, b, seed) = match words[..] {
        [seconds, a, b] => (seconds, a, b, None),
        [seconds, a, b, seed] => (seconds, a, b, Some(seed)),
        _ => return fail(USAGE),
    };
    let Ok(seconds) = seconds.parse() else { return fail(USAGE) };
    let seed = match seed.map(str::parse) {
        Some(Ok(seed)) => seed,
        Some(Err(_)) => return fail(USAGE),
        None => SystemTime::UNIX_EPOCH.elapsed().map_or(0, |now| now.as_nanos() as u64),
    };
    let folder = std::env::temp_dir().join(format!("fuzz-{}", std::process::id()));
    if let Err(error) = fs::create_dir(&folder) {
        return fail(&format!("{}: {error}", folder.display()));
    }
    let pair = Pair { a, b, stream: folder.join("stream") };
    let outcome = pair.compare_for(Duration::from_secs(seconds), seed);
    // What is left behind in a temporary folder does no harm.
    let _ = fs::remove_dir_all(&folder);
    match outcome {
        Ok(true) => ExitCode::SUCCESS,
        Ok(false) => ExitCode::FAILURE,
        Err(error) => fail(&error.to_string()),
    }
}

fn fail(what: &str) -> ExitCode {
    eprintln!("{what}");
    ExitCode::from(2)
}

/// How a program's input reaches it.
#[derive(Clone, Copy)]
enum Feed {
    /// As a file.
    File,
    /// Through a pipe, in pieces of at most so many octets.
    Pieces(usize),
}

/// What a program did with a stream.
#[derive(PartialEq)]
struct Outcome {
    printed: Vec<u8>,
    /// Why it did not end by itself, where it did not.
    failed: Option<String>,
}

struct Pair<'a> {
    a: &'a str,
    b: &'a str,
    /// The file that lends both programs the stream.
    stream: PathBuf,
}

impl Pair<'_> {
    /// True if no difference was met before the time was over.
    fn compare_for(&self, time: Duration, seed: u64) -> io::Result<bool> {
        let begin = Instant::now();
        let mut random = Random::new(seed);
        let (mut streams, mut lines) = (0_u64, 0_u64);
        let mut progress = Progress::new("fuzz");
        while begin.elapsed() < time {
            progress.at(|| {
                let (now, all) = (begin.elapsed().as_secs(), time.as_secs());
                format!("{now} of {all} seconds, {streams} streams, {lines} frames")
            });
            let octets = any_stream(&mut random);
            let feed = match random.below(8) {
                0 => Feed::Pieces(1 + random.below(100)),
                1 => Feed::Pieces(1 + random.below(10_000)),
                _ => Feed::File,
            };
            let (a, b) = self.outcomes(&octets, feed)?;
            if a != b || a.failed.is_some() {
                drop(progress);
                println!("seed {seed}, stream {streams}: the programs differ");
                self.keep(octets, feed)?;
                return Ok(false);
            }
            streams += 1;
            lines += a.printed.iter().filter(|octet| **octet == b'\n').count() as u64;
        }
        drop(progress);
        println!("seed {seed}: {streams} streams, {lines} frames compared, no difference");
        Ok(true)
    }

    fn outcomes(&self, octets: &[u8], feed: Feed) -> io::Result<(Outcome, Outcome)> {
        fs::write(&self.stream, octets)?;
        let a = outcome(self.a, &self.stream, octets, feed)?;
        let b = outcome(self.b, &self.stream, octets, feed)?;
        Ok((a, b))
    }

    fn differ(&self, octets: &[u8], feed: Feed) -> io::Result<bool> {
        let (a, b) = self.outcomes(octets, feed)?;
        Ok(a != b || a.failed.is_some())
    }

    /// Keeps the stream, made shorter by frames that the difference does not need, and says where
    /// the programs differ on it.
    fn keep(&self, whole: Vec<u8>, feed: Feed) -> io::Result<()> {
        let mut octets = whole.clone();
        let begin = Instant::now();
        let mut part = borders(&octets).len().div_ceil(2);
        let mut progress = Progress::new("shortening");
        while part > 0 && begin.elapsed() < SHORTENING {
            let mut at = 0;
            while begin.elapsed() < SHORTENING {
                progress.at(|| format!("{} octets, less {part} frames at a time", octets.len()));
                let borders = borders(&octets);
                if at + 1 >= borders.len() {
                    break;
                }
                let end = (at + part).min(borders.len() - 1);
                let mut shorter = octets.clone();
                shorter.drain(borders[at]..borders[end]);
                if self.differ(&shorter, feed)? {
                    octets = shorter;
                } else {
                    at = end;
                }
            }
            part /= 2;
        }
        drop(progress);
        let (mut a, mut b) = self.outcomes(&octets, feed)?;
        if a == b && a.failed.is_none() {
            // It does not come every time: keep what was seen.
            println!("on a second try they agree; the whole stream is kept");
            octets = whole;
            (a, b) = self.outcomes(&octets, feed)?;
        }
        fs::write(KEPT, &octets)?;
        println!("the stream is kept in {KEPT}, {} frames:", borders(&octets).len() - 1);
        say_where(self.a, self.b, &a, &b, &octets);
        Ok(())
    }
}

/// Runs a program on a stream.
fn outcome(program: &str, stream: &Path, octets: &[u8], feed: Feed) -> io::Result<Outcome> {
    let mut command = Command::new(program);
    command.stdout(Stdio::piped());
    match feed {
        Feed::File => command.stdin(File::open(stream)?),
        Feed::Pieces(_) => command.stdin(Stdio::piped()),
    };
    let mut child = command
        .spawn()
        .map_err(|error| io::Error::new(error.kind(), format!("{program}: {error}")))?;
    let mut output = child.stdout.take().expect("standard output is a pipe");
    let input = child.stdin.take();

    thread::scope(|scope| {
        let (sender, receiver) = mpsc::channel();
        scope.spawn(move || {
            let mut printed = Vec::new();
            let read = output.read_to_end(&mut printed);
            let _ = sender.send(read.map(|_| printed));
        });
        if let (Some(mut input), Feed::Pieces(most)) = (input, feed) {
            scope.spawn(move || {
                for piece in octets.chunks(most) {
                    // A refused frame ends a run, and the pipe with it.
                    if input.write_all(piece).is_err() {
                        break;
                    }
                }
            });
        }
        let Ok(printed) = receiver.recv_timeout(PATIENCE) else {
            child.kill()?;
            child.wait()?;
            let failed = Some(format!("not done after {} seconds", PATIENCE.as_secs()));
            return Ok(Outcome { printed: Vec::new(), failed });
        };
        let status = child.wait()?;
        // A program may end a refused run with any status of its own, but no signal.
        let failed = status.code().is_none().then(|| status.to_string());
        Ok(Outcome { printed: printed?, failed })
    })
}

fn say_where(name_a: &str, name_b: &str, a: &Outcome, b: &Outcome, octets: &[u8]) {
    for (name, outcome) in [(name_a, a), (name_b, b)] {
        if let Some(failed) = &outcome.failed {
            println!("{name}: {failed}");
        }
    }
    let lines = |outcome: &Outcome| -> Vec<String> {
        let lines = outcome.printed.split_inclusive(|octet| *octet == b'\n');
        lines.map(|line| String::from_utf8_lossy(line).into_owned()).collect()
    };
    let (a, b) = (lines(a), lines(b));
    let at = a.iter().zip(&b).take_while(|(a, b)| a == b).count();
    let script = show(octets);
    let script: Vec<&str> = script.lines().collect();
    for event in script.iter().take(at + 1).skip(at.saturating_sub(20)) {
        println!("    {event:.100}");
    }
    let line =
        |lines: &[String]| lines.get(at).map_or("nothing".into(), |line| format!("{line:?}"));
    println!("line {at}: {name_a} prints {}", line(&a));
    println!("line {at}: {name_b} prints {}", line(&b));
}
