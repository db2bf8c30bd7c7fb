//! Streams of frames for the floor controller: generated, written by hand, shown and damaged; and
//! what came of them, for the people who use it.

#![forbid(unsafe_code)]

pub mod cases;
pub mod cells;
pub mod damage;
pub mod generate;
pub mod json;
pub mod layout;
pub mod page;
pub mod picture;
pub mod random;
pub mod received;
pub mod refused;
pub mod script;
pub mod shapes;
pub mod story;
pub mod tell;
pub mod walk;
pub mod words;
