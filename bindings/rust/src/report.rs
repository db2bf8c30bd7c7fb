//! What an event did.

use std::fmt;

/// The kind of an event.
#[derive(Clone, Copy, Debug, PartialEq, Eq, Hash)]
#[non_exhaustive]
pub enum Kind {
    /// The floor is started; a, b: stations, carts.
    Start = 0,
    /// A cart rolled in; a, b: station, cart.
    Enter = 1,
    /// A correction was sent; a, b: station, number.
    Send = 2,
    /// A record on a line was handled; a: 1 multicast, 2 ack, 3 delete, 4 deregister, 5 register; b: the message's number, of 4 and 5 the cart.
    Wire = 3,
    /// A cart received a text; a, b: initiator, number.
    Radio = 4,
    /// A cart greeted another station; a, b: cart, to.
    Move = 5,
    /// A cart was told steady or not; a, b: cart, flag.
    Flag = 6,
    /// A group has new members; a, b: group, how many.
    Group = 7,
    /// A correction was sent to a group; a, b: station, number.
    SendGroup = 8,
    /// A full calibration table was sent; a, b: station, number.
    SendLong = 9,
    /// A cart went back to the factory; a, b: cart, 0.
    Retire = 10,
}

impl Kind {
    /// All of them, by their numbers.
    pub const ALL: &'static [Kind] = &[
        Kind::Start,
        Kind::Enter,
        Kind::Send,
        Kind::Wire,
        Kind::Radio,
        Kind::Move,
        Kind::Flag,
        Kind::Group,
        Kind::SendGroup,
        Kind::SendLong,
        Kind::Retire,
    ];

    pub(crate) fn of(number: u64) -> Kind {
        Kind::ALL[number as usize]
    }
}

/// What an event did. Its `Display` is the line of the program `floor`, without the index: kind, a, b, p, w, q, and of a radio step the text in
/// hexadecimal, `-` if it is empty.
#[derive(Clone, Debug, PartialEq, Eq, Hash)]
pub struct Report {
    /// What was done.
    pub kind: Kind,
    /// The first of the kind's two numbers.
    pub a: u64,
    /// The second.
    pub b: u64,
    /// p: the numbers passed over in the step.
    pub passed: u64,
    /// w: the records put on lines.
    pub records: u64,
    /// q: the largest place in a queue that the step gave, 1 for the head, 0 if it queued none.
    pub place: u64,
    /// Of a radio step, the text.
    pub text: Option<Vec<u8>>,
}

impl fmt::Display for Report {
    fn fmt(&self, f: &mut fmt::Formatter) -> fmt::Result {
        write!(
            f,
            "{} {} {} {} {} {}",
            self.kind as u64, self.a, self.b, self.passed, self.records, self.place
        )?;
        match self.text.as_deref() {
            None => Ok(()),
            Some([]) => write!(f, " -"),
            Some(text) => {
                write!(f, " ")?;
                text.iter().try_for_each(|octet| write!(f, "{octet:02x}"))
            }
        }
    }
}
