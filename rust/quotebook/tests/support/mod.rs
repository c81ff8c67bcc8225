//! The library as a book that the second implementation can be compared with.
#![allow(dead_code)]

pub mod compared;
pub mod damage;
pub mod foretold;
pub mod guarded;
pub mod killing;
pub mod layout;
pub mod pages;
pub mod parts;
pub mod reading;
pub mod recording;
pub mod writing;

use guarded::Guarded;
use second::{Engine, QuoteBook, Reviewer};

pub fn library(n: u32) -> Box<dyn QuoteBook> {
    Box::new(Guarded::fresh(n))
}

pub fn engine(n: u32) -> Box<dyn QuoteBook> {
    Box::new(Engine::fresh(n).expect("n is 1 to 64"))
}

pub fn reviewer(n: u32) -> Box<dyn QuoteBook> {
    Box::new(Reviewer::fresh(n).expect("n is 1 to 64"))
}
