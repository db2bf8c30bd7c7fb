//! Many events by one call: frames from one slice, their lines into another.

use crate::linked;
use crate::{Controller, Product, Refusal};
use std::fmt;
use std::io::{self, ErrorKind, Read, Write};

/// Octets of a piece of input, and of the lines of one.
const PIECE: usize = 1 << 20;

/// How far frames were run.
#[derive(Clone, Copy, Debug, PartialEq, Eq)]
pub struct Progress {
    /// Octets read from the front of the input.
    pub read: usize,
    /// Octets written to the front of the output.
    pub written: usize,
    /// Frames, the one among them that ended the run.
    pub frames: u64,
    /// Why it stopped.
    pub stopped: Stopped,
}

/// Why a run over frames stopped.
#[derive(Clone, Copy, Debug, PartialEq, Eq)]
pub enum Stopped {
    /// The output has no room for another line.
    Full,
    /// No whole frame is left.
    Waits,
    /// A frame was refused with 1 to 4, which ends the run. It begins at the first octet not read.
    Ended(Refusal),
}

/// How a run over all frames of an input went.
#[derive(Clone, Copy, Debug, PartialEq, Eq)]
pub struct Ran {
    /// Frames, the one among them that ended the run.
    pub frames: u64,
    /// Octets of the frames before that one.
    pub octets: u64,
    /// The refusal, of 1 to 4, that ended the run before the input's end.
    pub ended: Option<Refusal>,
}

/// The index of a frame, or the length of an input, is 2^63 or more.
#[derive(Clone, Copy, Debug, PartialEq, Eq)]
pub struct TooFar;

impl fmt::Display for TooFar {
    fn fmt(&self, f: &mut fmt::Formatter) -> fmt::Result {
        write!(f, "the index of a frame, or the length of an input, is 2^63 or more")
    }
}

impl std::error::Error for TooFar {}

/// The refusal that the last of these lines says, by its last digit: it is one of 1 to 4.
fn last_refusal(lines: &[u8]) -> Refusal {
    let digit = lines.iter().rev().nth(1).expect("a run that ended has a last line");
    Refusal::of(u64::from(digit - b'0')).expect("a run is ended by a refusal")
}

impl<P: Product> Controller<P> {
    /// Takes frames from one slice and writes their lines into another, for whoever has many events: the floor is tested once, and not for each. `index` is
    /// the number of the first frame, and `last` says that no more input comes. A call costs as much as about a thousand frames: hand it pieces of 1 MiB.
    ///
    /// ```
    /// use mekhturia::{Floor, Stopped};
    /// let (mut floor, mut output) = (Floor::new(), vec![0; 65536]);
    /// let start = [0x01, 0, 0, 0, 0, 0, 0, 0, 0, 0, 0, 0, 0, 0, 0, 0];
    /// let progress = floor.frames(&start, &mut output, 0, true).unwrap();
    /// assert_eq!(&output[..progress.written], b"0 0 2 1 0 0 0\n");
    /// assert_eq!((progress.read, progress.frames, progress.stopped), (16, 1, Stopped::Waits));
    /// ```
    pub fn frames(
        &mut self,
        input: &[u8],
        output: &mut [u8],
        index: u64,
        last: bool,
    ) -> Result<Progress, TooFar> {
        let words = linked::frames(&mut self.parts, input, output, index, last).ok_or(TooFar)?;
        let [state, read, written, frames, ..] = words;
        let written = written as usize;
        let stopped = match state {
            0 => Stopped::Full,
            1 => Stopped::Waits,
            _ => Stopped::Ended(last_refusal(&output[..written])),
        };
        Ok(Progress { read: read as usize, written, frames, stopped })
    }

    /// Runs all frames of an input, and writes their lines: what the program `floor` prints. The lines of a piece are written before the next is read.
    ///
    /// ```
    /// use mekhturia::{Floor, Refusal};
    /// let (cut, mut lines) = ([0x01, 0, 0], vec![]);
    /// let ran = Floor::new().run(&cut[..], &mut lines).unwrap();
    /// assert_eq!((lines.as_slice(), ran.octets, ran.ended), (&b"0 no 1\n"[..], 0, Some(Refusal::Cut)));
    /// ```
    pub fn run(&mut self, mut input: impl Read, mut output: impl Write) -> io::Result<Ran> {
        let (mut piece, mut lines) = (vec![0; PIECE], vec![0; PIECE]);
        let mut ran = Ran { frames: 0, octets: 0, ended: None };
        let mut have = 0;
        loop {
            let got = read_some(&mut input, &mut piece[have..])?;
            have += got;
            let taken =
                self.run_piece(&piece[..have], &mut lines, got == 0, &mut output, &mut ran)?;
            output.flush()?;
            if got == 0 || ran.ended.is_some() {
                return Ok(ran);
            }
            piece.copy_within(taken..have, 0);
            have -= taken;
        }
    }

    /// The whole frames of a piece, as many calls as their lines need: how many octets they have.
    fn run_piece(
        &mut self,
        piece: &[u8],
        lines: &mut [u8],
        last: bool,
        output: &mut impl Write,
        ran: &mut Ran,
    ) -> io::Result<usize> {
        let mut at = 0;
        loop {
            let progress =
                self.frames(&piece[at..], lines, ran.frames, last).map_err(io::Error::other)?;
            output.write_all(&lines[..progress.written])?;
            at += progress.read;
            ran.octets += progress.read as u64;
            ran.frames += progress.frames;
            match progress.stopped {
                Stopped::Full => continue,
                Stopped::Waits => return Ok(at),
                Stopped::Ended(refusal) => ran.ended = Some(refusal),
            }
            return Ok(at);
        }
    }
}

/// Reads once, whatever interrupts it.
fn read_some(input: &mut impl Read, room: &mut [u8]) -> io::Result<usize> {
    loop {
        match input.read(room) {
            Err(error) if error.kind() == ErrorKind::Interrupted => continue,
            got => return got,
        }
    }
}
