//! Tapes: the input of the tape program of document 01 ("Tape program").
//!
//! - [`Tape`] is a tape as symbols, lines and records; it is written as bytes and read back.
//! - [`program`] is the tape program written a second time, over the second engine. The tests run
//!   the proved program on many tapes and compare what both print.
//! - [`generate`] makes random tapes, [`sample`] the one that the demo shows.
//! - [`output`] reads what the tape program prints, and [`show`] lays it out as a table for people,
//!   in the words of [`words`].

#![forbid(unsafe_code)]
#![warn(missing_docs)]

pub mod generate;
pub mod output;
pub mod program;
pub mod sample;
pub mod show;
mod tape;
pub mod words;

pub use tape::Tape;
