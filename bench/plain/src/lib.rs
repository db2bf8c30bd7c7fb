//! The floor controller of document 01, with the requests of document 02 that have landed, written
//! by hand and without proofs: what the proved controller is compared with, for its answers and for
//! its speed.
//!
//! * [`floor`]: the records of stations, carts and held messages, and the wired lines.
//! * [`steps`]: the events: start, enter, send, wire, radio, move, steady,
//!   groups and sends to them, long sends, retire.
//! * [`quiet`]: the floor run until it is quiet.
//! * [`frames`]: frames taken apart into events.
//! * [`report`]: the printed run.
//! * `store`: where long texts lie.
//! * [`run`]: frames in, printed run out.
//! * [`lists`]: plain lists of what carts have not received yet.
//! * [`training`]: a floor and the lists fed from one input.
//! * [`view`]: a floor read from outside.
//! * [`words`]: a floor in the words of the proved controller.

#![forbid(unsafe_code)]

pub mod floor;
pub mod frames;
pub mod lists;
pub mod quiet;
pub mod report;
pub mod run;
pub mod steps;
mod store;
pub mod training;
pub mod view;
pub mod words;

pub use floor::{CartNo, Floor, GroupNo, Limits, MessageNo, Place, StationNo};
pub use steps::{Refusal, Step};
