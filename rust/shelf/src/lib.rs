//! More than 64 symbols: a shelf of proved quote books, by the rules of one large book.
//!
//! ```
//! use quotebook::message::{Header, RoundLotQuote};
//! use quotebook::{write_block, Code};
//! use shelf::Shelf;
//!
//! # fn main() -> Result<(), Box<dyn std::error::Error>> {
//! let mut shelf = Shelf::new(500)?;
//! for at in 0..500 {
//!     shelf.add_symbol(format!("X{at}"), 100, b'N')?;
//! }
//! shelf.open_line(5, b'N')?;
//! shelf.start_day()?;
//! let quote = |symbol: &str| -> Result<Vec<u8>, Box<dyn std::error::Error>> {
//!     let quote = RoundLotQuote::new(Header::new(b'N', 7), symbol.parse()?);
//!     Ok(quote.bid("10.00".parse()?, 3).to_bytes())
//! };
//! let block = write_block(1, [quote("X7")?, quote("X499")?, quote("X500")?])?;
//! let taken = shelf.take_block(5, &block)?;
//! let codes: Vec<Code> = taken.answers().map(|answer| answer.code).collect();
//! assert_eq!(codes, [Code::Accepted, Code::Accepted, Code::Symbol]);
//! assert_eq!(shelf.line(5).map(|line| line.expected), Some(4));
//! let bid = shelf.read("X499")?.national_bid;
//! assert_eq!(bid.map(|bid| bid.to_string()), Some("N R 10.00 x 3".to_string()));
//! # Ok(())
//! # }
//! ```
//!
//! A block is taken once, by a front book that has every line and no symbol: it makes checks 1 to 35
//! and 86, keeps the line's record and rejects each message that it can without knowing a symbol. The messages
//! that come as far as the check of their symbol are handed on to the books that list them, in blocks
//! that the proved writer makes, and the answers are put together in the block's order. FINRA Open and
//! Close go to every book.
//!
//! [`Shelf`] works on the caller's thread, [`ThreadedShelf`] spreads its books over threads of their
//! own. What is proved of a shelf and what is only tested, and how far it carries, is in docs/SCALE.md.

#![forbid(unsafe_code)]
#![warn(missing_docs)]

mod books;
mod front;
mod index;
mod portion;
mod shelf;
mod threads;

pub use shelf::{Shelf, SYMBOLS_A_BOOK};
pub use threads::ThreadedShelf;
