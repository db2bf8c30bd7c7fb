//! What the carts of a run received, by initiator.
//!
//! "For two runs from the same start in which each station makes the same accepted sends [...] and
//! both ending with no message held, every cart has received the same messages from every station in
//! the same order, texts included. Order between different stations may differ and is not claimed."
//! So the list goes by cart and then by initiator, and two such runs give the same list.

use std::fmt;

use plain::floor::CARTS;
use plain::frames::Event;
use plain::{CartNo, Limits, StationNo};

use crate::walk::{BadFrame, Moment, Walk};

/// A correction that a cart received.
#[derive(Clone, Debug, PartialEq, Eq)]
pub struct Receipt {
    pub initiator: StationNo,
    pub number: u32,
    pub text: Vec<u8>,
}

/// What the carts of a run received.
#[derive(Clone, Debug, PartialEq, Eq)]
pub struct Received {
    pub stations: u8,
    /// For each cart of the floor its receipts, the earliest first. "The sent and received lists of
    /// a cart begin at its latest entry."
    pub carts: Vec<Vec<Receipt>>,
    /// Messages that are held at the end.
    pub held: usize,
}

impl Received {
    /// What a cart received of one station.
    pub fn of(&self, cart: CartNo, initiator: StationNo) -> impl Iterator<Item = &Receipt> {
        let receipts = self.carts.get(cart.0 as usize).into_iter().flatten();
        receipts.filter(move |receipt| receipt.initiator == initiator)
    }
}

/// What the carts of a run received.
pub fn received(octets: &[u8], limits: Limits) -> Result<Received, BadFrame> {
    let mut walk = Walk::new(octets, limits);
    let mut carts = vec![Vec::new(); CARTS];
    while let Some(moment) = walk.step()? {
        note(&moment, &mut carts);
    }
    let floor = walk.floor();
    carts.truncate(floor.carts() as usize);
    Ok(Received { stations: floor.stations(), carts, held: floor.held() })
}

fn note(moment: &Moment, carts: &mut [Vec<Receipt>]) {
    match (&moment.event, &moment.answer) {
        (Event::Enter { cart, .. }, Ok(_)) => carts[cart.0 as usize].clear(),
        (Event::Radio { cart, .. }, Ok(step)) => carts[cart.0 as usize].push(Receipt {
            initiator: StationNo(step.a as u8),
            number: step.b,
            text: moment.text.clone(),
        }),
        _ => (),
    }
}

/// A line for each receipt, by cart, then by initiator, then in order: `cart 0, station 1: 0 a1`.
/// The last line says how many messages are held: while there are any, a list may still grow.
impl fmt::Display for Received {
    fn fmt(&self, f: &mut fmt::Formatter) -> fmt::Result {
        for (cart, receipts) in (0..).map(CartNo).zip(&self.carts) {
            if receipts.is_empty() {
                writeln!(f, "cart {}: nothing", cart.0)?;
            }
            for initiator in (0..self.stations).map(StationNo) {
                for receipt in self.of(cart, initiator) {
                    write!(f, "cart {}, station {}: {} ", cart.0, initiator.0, receipt.number)?;
                    receipt.text.iter().try_for_each(|octet| write!(f, "{octet:02x}"))?;
                    writeln!(f)?;
                }
            }
        }
        writeln!(f, "held at the end: {}", self.held)
    }
}
