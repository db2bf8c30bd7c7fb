//! **Mekhturia, the floor controller**, for Rust: corrections of the mass axis to instrument carts, each taken exactly once, also while they move.
//!
//! A [`Floor`] has up to 16 stations and 64 carts, a [`Kit`] up to 4 and 8; both have the same methods. Each event answers `Ok` with a [`Report`] of what
//! was done, or `Err` with a [`Refusal`], and a refusal changes nothing. What is linked is the proved controller, so that what a method does is what
//! crates/protocol/specs says; this crate lends it memory and hands its answers on, and that is only tested.
//!
//! ```
//! use mekhturia::{Cart, Carts, Floor, Refusal, Station};
//!
//! # fn main() -> Result<(), Refusal> {
//! let mut floor = Floor::new();
//! floor.start(2, 1)?;
//! floor.enter(Station(0), Cart(0))?;
//! let sent = floor.send(Station(1), Carts::from([Cart(0)]), &[0xA1])?;
//! assert_eq!(sent.to_string(), "2 1 0 0 2 0");
//! floor.wire(Station(1), Station(0))?;
//! let received = floor.radio(Station(0), Cart(0))?;
//! assert_eq!(received.text, Some(vec![0xA1]));
//! assert_eq!(floor.radio(Station(0), Cart(0)), Err(Refusal::NotItsTurn));
//! # Ok(())
//! # }
//! ```
#![deny(unsafe_code)]
#![warn(missing_docs)]

mod floor;
mod frames;
#[allow(unsafe_code)]
mod linked;
mod numbers;
mod refusal;
mod report;

pub use floor::{Controller, Floor, Kit, Product, SmallKit, WholeFloor};
pub use frames::{Progress, Ran, Stopped, TooFar};
pub use numbers::{Cart, Carts, Station};
pub use refusal::Refusal;
pub use report::{Kind, Report};

/// The longest text of a send, in octets.
pub const TEXT: usize = 32;

/// The longest text of all, in octets.
pub const LONG_TEXT: usize = 512;

/// An output with so many octets free takes every line; with fewer, [`Controller::frames`] stops.
pub const LINE: usize = 1172;
