//! The floor and the kit.

use crate::linked::{self, Parts, Words};
use crate::{Cart, Carts, Kind, Refusal, Report, Station, LONG_TEXT};
use std::fmt;
use std::marker::PhantomData;

mod sealed {
    pub trait Sealed {
        /// Its number, the first argument of every call.
        const NUMBER: u64;
        /// Words of `stations`, `carts`, `messages` and `lines`, octets of `texts` and `store`.
        const LENGTHS: [usize; 6];
    }
}

/// A product: which limits a controller goes by. There are two, [`WholeFloor`] and [`SmallKit`].
pub trait Product: sealed::Sealed {}

/// Up to 16 stations, 64 carts and 32 held messages.
#[derive(Clone, Copy, Debug)]
pub struct WholeFloor;

/// Up to 4 stations, 8 carts and 8 held messages.
#[derive(Clone, Copy, Debug)]
pub struct SmallKit;

impl sealed::Sealed for WholeFloor {
    const NUMBER: u64 = 0;
    const LENGTHS: [usize; 6] = [1972, 1216, 224, 11250, 1024, 4096];
}

impl sealed::Sealed for SmallKit {
    const NUMBER: u64 = 1;
    const LENGTHS: [usize; 6] = [580, 152, 56, 2250, 256, 4096];
}

impl Product for WholeFloor {}
impl Product for SmallKit {}

/// The floor of a laboratory.
pub type Floor = Controller<WholeFloor>;

/// The demonstration kit.
///
/// ```
/// use mekhturia::{Floor, Kit, Refusal};
/// assert_eq!(Kit::new().start(5, 1), Err(Refusal::Limits));
/// assert!(Floor::new().start(5, 1).is_ok());
/// ```
pub type Kit = Controller<SmallKit>;

/// A controller with its memory, by the limits of its product: see [`Floor`] and [`Kit`]. A clone is a floor of its own, which says the same.
#[derive(Clone)]
pub struct Controller<P: Product> {
    pub(crate) parts: Parts,
    product: PhantomData<P>,
}

/// The report of an answer's words, or its refusal. The text of a radio step stands at the front of the buffer.
fn told(words: Words, buffer: &[u8]) -> Result<Report, Refusal> {
    let [refusal, kind, a, b, passed, records, place, size] = words;
    if let Some(refusal) = Refusal::of(refusal) {
        return Err(refusal);
    }
    let kind = Kind::of(kind);
    let text = (kind == Kind::Radio).then(|| buffer[..size as usize].to_vec());
    Ok(Report { kind, a, b, passed, records, place, text })
}

impl<P: Product> Default for Controller<P> {
    fn default() -> Self {
        Self::new()
    }
}

impl<P: Product> fmt::Debug for Controller<P> {
    fn fmt(&self, f: &mut fmt::Formatter) -> fmt::Result {
        f.debug_struct("Controller").finish_non_exhaustive()
    }
}

impl<P: Product> Controller<P> {
    /// A floor that is not started.
    pub fn new() -> Self {
        Controller { parts: Parts::new(P::NUMBER, P::LENGTHS), product: PhantomData }
    }

    /// Starts it, with so many stations and carts.
    pub fn start(&mut self, stations: u64, carts: u64) -> Result<Report, Refusal> {
        told(linked::start(&mut self.parts, stations, carts), &[])
    }

    /// A cart rolls in at a station.
    pub fn enter(&mut self, station: Station, cart: Cart) -> Result<Report, Refusal> {
        told(linked::enter(&mut self.parts, station.0, cart.0), &[])
    }

    /// A station sends carts a correction, of 1 to 32 octets.
    pub fn send(&mut self, station: Station, carts: Carts, text: &[u8]) -> Result<Report, Refusal> {
        told(linked::send(&mut self.parts, station.0, carts.0, text), &[])
    }

    /// The first record on a line is handled.
    pub fn wire(&mut self, from: Station, to: Station) -> Result<Report, Refusal> {
        told(linked::wire(&mut self.parts, from.0, to.0), &[])
    }

    /// The head of a station's queue goes to the cart: its text is in the report.
    pub fn radio(&mut self, station: Station, cart: Cart) -> Result<Report, Refusal> {
        let mut buffer = [0; LONG_TEXT];
        told(linked::radio(&mut self.parts, station.0, cart.0, &mut buffer), &buffer)
    }

    /// A cart greets another station.
    pub fn move_cart(&mut self, cart: Cart, to: Station) -> Result<Report, Refusal> {
        told(linked::move_cart(&mut self.parts, cart.0, to.0), &[])
    }

    /// A cart is told steady, or not.
    ///
    /// ```
    /// use mekhturia::{Cart, Carts, Floor, Refusal, Station};
    /// # fn main() -> Result<(), Refusal> {
    /// let mut floor = Floor::new();
    /// floor.start(1, 1)?;
    /// floor.enter(Station(0), Cart(0))?;
    /// floor.send(Station(0), Carts(1), b"-2 ppm")?;
    /// floor.wire(Station(0), Station(0))?;
    /// floor.flag(Cart(0), false)?;
    /// assert_eq!(floor.radio(Station(0), Cart(0)), Err(Refusal::Unsteady));
    /// # Ok(())
    /// # }
    /// ```
    pub fn flag(&mut self, cart: Cart, steady: bool) -> Result<Report, Refusal> {
        told(linked::flag(&mut self.parts, cart.0, steady), &[])
    }

    /// A group's members from now on; no carts undefine it. Groups are 0 to 15.
    pub fn group(&mut self, group: u64, carts: Carts) -> Result<Report, Refusal> {
        told(linked::group(&mut self.parts, group, carts.0), &[])
    }

    /// A station sends the members of a group a correction, of 1 to 32 octets.
    pub fn send_group(
        &mut self,
        station: Station,
        group: u64,
        text: &[u8],
    ) -> Result<Report, Refusal> {
        told(linked::send_group(&mut self.parts, station.0, group, text), &[])
    }

    /// A station sends carts a full calibration table, of 33 to 512 octets.
    pub fn send_long(
        &mut self,
        station: Station,
        carts: Carts,
        text: &[u8],
    ) -> Result<Report, Refusal> {
        told(linked::send_long(&mut self.parts, station.0, carts.0, text), &[])
    }

    /// A cart goes back to the factory: its number becomes free, and it leaves every group.
    ///
    /// ```
    /// use mekhturia::{Cart, Carts, Floor, Refusal, Station};
    /// # fn main() -> Result<(), Refusal> {
    /// let mut floor = Floor::new();
    /// floor.start(2, 1)?;
    /// floor.enter(Station(0), Cart(0))?;
    /// floor.send(Station(1), Carts(1), b"+5 ppm")?;
    /// assert_eq!(floor.retire(Cart(0)), Err(Refusal::Named));
    /// floor.quiet()?;
    /// floor.retire(Cart(0))?;
    /// assert_eq!(floor.move_cart(Cart(0), Station(1)), Err(Refusal::Outside));
    /// # Ok(())
    /// # }
    /// ```
    pub fn retire(&mut self, cart: Cart) -> Result<Report, Refusal> {
        told(linked::retire(&mut self.parts, cart.0), &[])
    }

    /// Takes wire and radio steps until there is none to be taken: how many it took.
    ///
    /// ```
    /// use mekhturia::{Cart, Carts, Kit, Refusal, Station};
    /// # fn main() -> Result<(), Refusal> {
    /// let mut kit = Kit::new();
    /// kit.start(2, 1)?;
    /// kit.enter(Station(0), Cart(0))?;
    /// kit.send(Station(1), Carts(1), b"+5 ppm")?;
    /// assert_eq!(kit.text_of(Station(1), 0), Ok(&b"+5 ppm"[..]));
    /// assert_eq!(kit.quiet(), Ok(6));
    /// assert_eq!(kit.text_of(Station(1), 0), Err(Refusal::NotHeld));
    /// # Ok(())
    /// # }
    /// ```
    pub fn quiet(&mut self) -> Result<u64, Refusal> {
        let [refusal, steps, ..] = linked::quiet(&mut self.parts, &mut [0; LONG_TEXT]);
        Refusal::of(refusal).map_or(Ok(steps), Err)
    }

    /// The text of the held message that a station sent with this number.
    pub fn text_of(&self, initiator: Station, number: u64) -> Result<&[u8], Refusal> {
        let [refusal, stored, at, octets, ..] = linked::text(&self.parts, initiator.0, number);
        match Refusal::of(refusal) {
            Some(refusal) => Err(refusal),
            None => Ok(self.parts.text(stored == 1, at as usize, octets as usize)),
        }
    }
}
