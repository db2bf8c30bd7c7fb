//! Makes, writes and shows streams of frames, and says what came of them.

use std::fmt::Display;
use std::fs::File;
use std::io::{self, Read, Write};
use std::process::ExitCode;

use frames::cases::{case, CASES};
use frames::generate::{Generator, Wishes};
use frames::page::page;
use frames::picture::picture;
use frames::received::received;
use frames::script::{script, show};
use frames::tell::tell;
use frames::walk::BadFrame;
use plain::Limits;
use shared::progress::Progress;

const USAGE: &str = "\
frames gen SEED COUNT [--kit] [--stations N] [--carts N] [--held H] [--lines L] [--bad PERCENT]
        [--groups PERCENT] [--long PERCENT] [--retire PERCENT]
    writes a random stream of COUNT frames that keeps a floor busy; --kit: one of the
    demonstration kit; --groups: so many of its sends have to do with groups;
    --long: so many have a long text; --retire: carts retire and come back
frames script [FILE] < TEXT > FRAMES
    writes the frames of a script, one event on a line: start STATIONS CARTS,
    enter STATION CART, send STATION CARTS TEXT, wire FROM TO, radio STATION CART,
    move CART TO, steady CART FLAG, group GROUP CARTS, gsend STATION GROUP TEXT,
    long STATION CARTS TEXT, retire CART,
    octets HEXADECIMAL; CARTS as 0,3 or -, TEXT in hexadecimal or -, FLAG 1 or 0
frames show [FILE] < FRAMES > TEXT
    writes the script of a stream
frames case NAME > FRAMES
    writes a run that has a name; without one, says which there are
frames tell [--kit] [FILE] < FRAMES
    says each event and what came of it as a sentence, beside the numbers that floor prints
frames received [--kit] [FILE] < FRAMES
    says what each cart received of each station, in order
frames picture [--kit] [FILE] < FRAMES > SVG
    draws the run: stations as life lines, carts where they are, records as arrows
frames page [--kit] [FILE] < FRAMES > HTML
    makes a page of the run for a browser: the picture, and the floor at each step
What is read is FILE, if one is named, or standard input. --kit: by the limits of the
demonstration kit.";

/// Octets written at a time.
const PIECE: usize = 1 << 16;

fn main() -> ExitCode {
    let words: Vec<String> = std::env::args().skip(1).collect();
    let words: Vec<&str> = words.iter().map(String::as_str).collect();
    let done = match words[..] {
        ["gen", seed, count, ref wishes @ ..] => generate(seed, count, wishes),
        ["script", ref file @ ..] => Input::read(file).and_then(|input| write_script(&input)),
        ["case", name] => case(name)
            .ok_or_else(|| format!("no run is called {name:?}"))
            .and_then(|octets| write_all(&octets)),
        ["case"] => {
            let lines: Vec<String> =
                CASES.iter().map(|(name, what)| format!("{name}: {what}\n")).collect();
            write_all(lines.concat().as_bytes())
        }
        ["show", ref file @ ..] => {
            Input::read(file).and_then(|input| write_all(show(&input.octets).as_bytes()))
        }
        ["tell", ref words @ ..] => of_run(words, tell),
        ["received", ref words @ ..] => of_run(words, received),
        ["picture", ref words @ ..] => of_run(words, picture),
        ["page", ref words @ ..] => of_run(words, |octets, limits| {
            let mut progress = Progress::new("page");
            page(octets, limits, |read| progress.of(read, octets.len(), "octets"))
        }),
        _ => Err(USAGE.into()),
    };
    match done {
        Ok(()) => ExitCode::SUCCESS,
        Err(what) => {
            eprintln!("{what}");
            ExitCode::FAILURE
        }
    }
}

/// What a command reads.
struct Input<'a> {
    octets: Vec<u8>,
    /// None: standard input.
    file: Option<&'a str>,
}

impl<'a> Input<'a> {
    /// Reads the file that is named, or standard input.
    fn read(words: &[&'a str]) -> Result<Self, String> {
        let file = match *words {
            [] => None,
            [file] if !file.starts_with('-') => Some(file),
            [.., word] => return Err(format!("{word}: not understood\n{USAGE}")),
        };
        let mut input = Input { octets: Vec::new(), file };
        let read = match file {
            Some(file) => File::open(file).and_then(|mut file| file.read_to_end(&mut input.octets)),
            None => io::stdin().lock().read_to_end(&mut input.octets),
        };
        match read {
            Ok(_) => Ok(input),
            Err(error) => Err(input.wrong(error)),
        }
    }

    /// What is wrong with it, behind its name.
    fn wrong(&self, what: impl Display) -> String {
        self.file.map_or_else(|| what.to_string(), |file| format!("{file}: {what}"))
    }
}

fn write_script(input: &Input) -> Result<(), String> {
    let text = std::str::from_utf8(&input.octets).map_err(|error| {
        let before = &input.octets[..error.valid_up_to()];
        let line = 1 + before.iter().filter(|octet| **octet == b'\n').count();
        input.wrong(format!("line {line}: the script is not UTF-8"))
    })?;
    write_all(&script(text).map_err(|mistake| input.wrong(mistake))?)
}

/// Writes what is to be said of a run: all of it, or nothing where the run has a bad frame.
fn of_run<T: Display>(
    words: &[&str],
    say: impl FnOnce(&[u8], Limits) -> Result<T, BadFrame>,
) -> Result<(), String> {
    let (limits, file) = match *words {
        ["--kit", ref file @ ..] => (Limits::KIT, file),
        _ => (Limits::FLOOR, words),
    };
    let input = Input::read(file)?;
    let said = say(&input.octets, limits).map_err(|bad| input.wrong(bad))?;
    write_all(said.to_string().as_bytes())
}

fn write_all(octets: &[u8]) -> Result<(), String> {
    let mut output = io::stdout().lock();
    match output.write_all(octets).and_then(|()| output.flush()) {
        Ok(()) => Ok(()),
        // A reader that has seen enough closes the pipe; that is no mistake.
        Err(error) if error.kind() == io::ErrorKind::BrokenPipe => std::process::exit(0),
        Err(error) => Err(error.to_string()),
    }
}

fn number(what: &str, word: &str, least: u64, most: u64) -> Result<u64, String> {
    match word.parse() {
        Ok(n) if (least..=most).contains(&n) => Ok(n),
        _ => Err(format!("{what}: {word:?} is not a number from {least} to {most}")),
    }
}

fn wishes_of(words: &[&str]) -> Result<Wishes, String> {
    let (mut wishes, words) = match *words {
        ["--kit", ref words @ ..] => (Wishes::of_kit(), words),
        _ => (Wishes::default(), words),
    };
    let Limits { stations, carts, held, .. } = if wishes.kit { Limits::KIT } else { Limits::FLOOR };
    let most = |n: u8| n as u64;
    for pair in words.chunks(2) {
        match *pair {
            ["--stations", n] => {
                wishes.stations = number("--stations", n, 1, most(stations))? as u8;
            }
            ["--carts", n] => wishes.carts = number("--carts", n, 1, most(carts))? as u8,
            ["--held", n] => wishes.held = number("--held", n, 1, most(held))? as usize,
            ["--lines", n] => wishes.lines = number("--lines", n, 1, 3136)? as usize,
            ["--retire", n] => wishes.retire = number("--retire", n, 0, 100)? as usize,
            ["--long", n] => wishes.long = number("--long", n, 0, 100)? as usize,
            ["--groups", n] => wishes.groups = number("--groups", n, 0, 100)? as usize,
            ["--bad", n] => wishes.bad = number("--bad", n, 0, 100)? as usize,
            _ => return Err(format!("{}: not understood\n{USAGE}", pair[0])),
        }
    }
    Ok(wishes)
}

fn generate(seed: &str, count: &str, words: &[&str]) -> Result<(), String> {
    let seed = number("SEED", seed, 0, u64::MAX)?;
    let count = number("COUNT", count, 0, u64::MAX)?;
    let mut generator = Generator::new(seed, wishes_of(words)?);
    let mut octets = Vec::with_capacity(2 * PIECE);
    for _ in 0..count {
        generator.frame(&mut octets);
        if octets.len() >= PIECE {
            write_all(&octets)?;
            octets.clear();
        }
    }
    write_all(&octets)?;

    let counts = generator.counts();
    let mean = |sum: u64| sum as f64 / counts.frames.max(1) as f64;
    eprintln!(
        "{} frames, {} accepted, {} refused; {} sends, {} receipts; held {:.1}, on lines {:.1}",
        counts.frames,
        counts.accepted,
        counts.frames - counts.accepted,
        counts.sends,
        counts.receipts,
        mean(counts.held),
        mean(counts.on_lines),
    );
    Ok(())
}
