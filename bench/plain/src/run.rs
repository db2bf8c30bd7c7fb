//! A run: frames in, printed run out.

use std::io::{self, Read, Write};
use std::process::ExitCode;

use crate::floor::{CartNo, Floor, StationNo, LONG, TEXT};
use crate::frames::{self, Event, Reader, Taken};
use crate::report::Report;
use crate::steps::{Refusal, Step};

/// Octets read at a time.
const PIECE: usize = 1 << 16;

/// Reads frames to the end of the input, or to a frame that cannot be taken apart, and prints the
/// run. What was printed goes out before each reading, so a slow sender sees his answers.
pub fn run(input: impl Read, output: impl Write) -> io::Result<()> {
    run_on(&mut Box::new(Floor::new()), input, output).map(drop)
}

/// The same on a floor of the demonstration kit.
pub fn demo(input: impl Read, output: impl Write) -> io::Result<()> {
    run_on(&mut Box::new(Floor::kit()), input, output).map(drop)
}

/// The same, and at the end of the input the floor is run until it is quiet. One line more says how
/// many steps that took and how many messages are then held. Where a refusal ended the run before,
/// there is no such line: its own was the last.
pub fn closing(input: impl Read, mut output: impl Write) -> io::Result<()> {
    let mut floor = Box::new(Floor::new());
    if run_on(&mut floor, input, &mut output)?.is_some() {
        return Ok(());
    }
    match floor.quiet(&mut [0; LONG]) {
        Ok(steps) => writeln!(output, "quiet {steps} {}", floor.held())?,
        Err(refusal) => writeln!(output, "quiet no {}", refusal.number())?,
    }
    output.flush()
}

/// A run on a lent floor, which is left as the last event left it. Answers the refusal that ended
/// the run, if one did.
pub fn run_on(
    floor: &mut Floor,
    mut input: impl Read,
    mut output: impl Write,
) -> io::Result<Option<Refusal>> {
    let mut report = Report::new(PIECE);
    let mut piece = Piece::new();
    loop {
        let ended = piece.read(&mut input)?;
        let mut reader = Reader::new(piece.octets());
        let refused = take_all(&mut reader, floor, &mut report, &mut output)?;
        // Only the end of the input cuts a frame; the end of a piece does not.
        let last = refused.filter(|refusal| *refusal != Refusal::CutFrame || ended);
        if let Some(refusal) = last {
            report.refused(refusal);
        }
        output.write_all(report.lines())?;
        report.clear();
        output.flush()?;
        if last.is_some() || ended {
            return Ok(last);
        }
        let taken = reader.position();
        piece.drop_front(taken);
    }
}

/// What has been read of the input and not been taken apart yet.
pub(crate) struct Piece {
    octets: Box<[u8]>,
    filled: usize,
}

impl Piece {
    pub(crate) fn new() -> Self {
        Piece { octets: vec![0; PIECE].into_boxed_slice(), filled: 0 }
    }

    pub(crate) fn octets(&self) -> &[u8] {
        &self.octets[..self.filled]
    }

    /// Reads once; answers whether the input has ended.
    pub(crate) fn read(&mut self, input: &mut impl Read) -> io::Result<bool> {
        loop {
            match input.read(&mut self.octets[self.filled..]) {
                Ok(read) => {
                    self.filled += read;
                    return Ok(read == 0);
                }
                Err(error) if error.kind() == io::ErrorKind::Interrupted => continue,
                Err(error) => return Err(error),
            }
        }
    }

    /// Leaves out what has been taken.
    pub(crate) fn drop_front(&mut self, taken: usize) {
        self.octets.copy_within(taken..self.filled, 0);
        self.filled -= taken;
    }
}

/// Handles the frames of a piece, to its end or to a frame that is refused.
#[inline(always)]
fn take_all(
    reader: &mut Reader,
    floor: &mut Floor,
    report: &mut Report,
    output: &mut impl Write,
) -> io::Result<Option<Refusal>> {
    loop {
        if report.is_full() {
            output.write_all(report.lines())?;
            report.clear();
        }
        match reader.take() {
            Taken::Event(event) => handle(floor, &event, report),
            Taken::End => return Ok(None),
            Taken::Refused(refusal) => return Ok(Some(refusal)),
        }
    }
}

/// The exit status of a program that runs a floor, and what it says where it failed.
pub fn status(program: &str, outcome: io::Result<()>) -> ExitCode {
    match outcome {
        Ok(()) => ExitCode::SUCCESS,
        // A reader that has seen enough closes the pipe; that is no failure of the run.
        Err(error) if error.kind() == io::ErrorKind::BrokenPipe => ExitCode::SUCCESS,
        Err(error) => {
            eprintln!("{program}: {error}");
            ExitCode::FAILURE
        }
    }
}

/// Gives one event to the floor and prints its line.
#[inline(always)]
fn handle(floor: &mut Floor, event: &Event, report: &mut Report) {
    let (kind, answer): (u8, Result<Step, Refusal>) = match *event {
        Event::Start { stations, carts } => (frames::START, floor.start(stations, carts)),
        Event::Enter { station, cart } => (frames::ENTER, floor.enter(station, cart)),
        Event::Send { station, set, text } => (frames::SEND, floor.send(station, set, text)),
        Event::Wire { from, to } => (frames::WIRE, floor.wire(from, to)),
        Event::Move { cart, to } => (frames::MOVE, floor.move_cart(cart, to)),
        Event::Steady { cart, steady } => (frames::STEADY, floor.set_steady(cart, steady)),
        Event::Group { group, set } => {
            return print_rare(report, frames::GROUP, floor.set_group(group, set));
        }
        Event::GroupSend { station, group, text } => {
            let answer = floor.send_to_group(station, group, text);
            return print_rare(report, frames::GROUP_SEND, answer);
        }
        Event::LongSend { station, set, text } => {
            return print_rare(report, frames::LONG_SEND, floor.send_long(station, set, text));
        }
        Event::Retire { cart } => {
            return print_rare(report, frames::RETIRE, floor.retire(cart));
        }
        Event::Radio { station, cart } => {
            let mut text = [0; TEXT];
            return match floor.radio(station, cart, &mut text) {
                Ok((step, length)) => report.received(frames::RADIO, &step, &text, length),
                Err(Refusal::ShortBuffer) => hand_long(floor, station, cart, report),
                Err(refusal) => report.refused(refusal),
            };
        }
    };
    print(report, kind, answer);
}

/// A radio step whose text is too long for the buffer of the short ones, which was refused and has
/// changed nothing.
#[cold]
#[inline(never)]
fn hand_long(floor: &mut Floor, station: StationNo, cart: CartNo, report: &mut Report) {
    let mut text = [0; LONG];
    match floor.radio(station, cart, &mut text) {
        Ok((step, length)) => report.received_long(frames::RADIO, &step, &text[..length]),
        Err(refusal) => report.refused(refusal),
    }
}

/// Gives one event to the floor, a radio step with the lent buffer; the answer has the length of
/// the text that was written there, 0 for other events.
pub fn give(floor: &mut Floor, event: &Event, buffer: &mut [u8]) -> Result<(Step, usize), Refusal> {
    let answer = match *event {
        Event::Start { stations, carts } => floor.start(stations, carts),
        Event::Enter { station, cart } => floor.enter(station, cart),
        Event::Send { station, set, text } => floor.send(station, set, text),
        Event::Wire { from, to } => floor.wire(from, to),
        Event::Radio { station, cart } => return floor.radio(station, cart, buffer),
        Event::Move { cart, to } => floor.move_cart(cart, to),
        Event::Steady { cart, steady } => floor.set_steady(cart, steady),
        Event::Group { group, set } => floor.set_group(group, set),
        Event::GroupSend { station, group, text } => floor.send_to_group(station, group, text),
        Event::LongSend { station, set, text } => floor.send_long(station, set, text),
        Event::Retire { cart } => floor.retire(cart),
    };
    answer.map(|step| (step, 0))
}

/// Prints the line of an event.
#[inline(always)]
fn print(report: &mut Report, kind: u8, answer: Result<Step, Refusal>) {
    match answer {
        Ok(step) => report.accepted(kind, &step),
        Err(refusal) => report.refused(refusal),
    }
}

/// The same for the kinds that seldom come: their steps and their printing stay out of the loop,
/// so that its answers need no place in memory.
#[cold]
#[inline(never)]
fn print_rare(report: &mut Report, kind: u8, answer: Result<Step, Refusal>) {
    print(report, kind, answer);
}
