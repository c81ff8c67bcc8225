//! The books under test.
#![allow(dead_code)]

use second::compare::Fresh;
use second::reviewer::{Review, Shortened};
use second::{Engine, Incremental, QuoteBook, Reviewer};

pub fn engine(n: u32) -> Box<dyn QuoteBook> {
    Box::new(Engine::fresh(n).expect("n is 1 to 64"))
}

pub fn incremental(n: u32) -> Box<dyn QuoteBook> {
    Box::new(Incremental::fresh(n).expect("n is 1 to 64"))
}

pub fn reviewer(n: u32) -> Box<dyn QuoteBook> {
    Box::new(Reviewer::fresh(n).expect("n is 1 to 64"))
}

/// The reviewer that shortens its history at every message.
pub fn always_shortening(n: u32) -> Box<dyn QuoteBook> {
    Box::new(Review::<Shortened<1>>::fresh(n).expect("n is 1 to 64"))
}

/// The three books by name.
pub const BOOKS: [(&str, Fresh); 3] = [
    ("engine", engine),
    ("incremental", incremental),
    ("reviewer", reviewer),
];
