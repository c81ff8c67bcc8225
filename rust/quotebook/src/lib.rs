//! The quote book: exchange quotes in, one book out, by an engine that is proved correct.
//!
//! ```
//! use quotebook::message::{Header, RoundLotQuote};
//! use quotebook::{write_block, Book, Code, Order, Side};
//!
//! # fn main() -> Result<(), Box<dyn std::error::Error>> {
//! let quote = RoundLotQuote::new(Header::new(b'N', 7), "ZT".parse()?)
//!     .bid("10.00".parse()?, 3)
//!     .offer("10.02".parse()?, 2);
//! let block = write_block(1, [quote.to_bytes()])?;
//!
//! let mut book = Book::new(1)?;
//! book.add_symbol("ZT", 100, b'N')?;
//! book.open_line(5, b'N')?;
//! book.start_day()?;
//! let taken = book.take_block(5, &block)?;
//! for answer in taken.answers() {
//!     assert_eq!(answer.code, Code::Accepted);
//! }
//! let best = book.read("ZT")?;
//! assert_eq!(best.national_bid.map(|bid| bid.to_string()), Some("N R 10.00 x 3".to_string()));
//! assert_eq!(best.odd_bid, None);
//! let bid = book.is_protected("ZT", Side::Bids, "10.00".parse()?)?;
//! assert_eq!(bid.to_string(), "yes: N bids 10.00 or more");
//! let order = book.try_order("ZT", Order::Buy, 3)?;
//! assert_eq!(order.to_string(), "N 10.02 x 2; 1 not found");
//! # Ok(())
//! # }
//! ```
//!
//! [`Book`] owns its memory. The module [`lent`] has the same calls on memory that is kept elsewhere.
//! The module [`message`] builds messages, and [`write_block`] makes a block of them. A venue's own
//! block becomes a [`Run`] of such blocks by [`Book::convert`].
//! A call answers a [`Number`], a message a [`Code`]; each is written as one plain sentence.

#![deny(unsafe_code)]
#![warn(missing_docs)]

mod book;
mod code;
#[allow(unsafe_code)]
mod ffi;
mod field_error;
pub mod lent;
mod line;
pub mod log;
pub mod message;
mod number;
mod order;
mod price;
mod protection;
mod publication;
mod report;
mod run;
pub mod snapshot;
mod table;
mod writer;

pub use book::Book;
pub use code::Code;
pub use field_error::FieldError;
pub use line::LineRecord;
pub use number::{Number, Refusal};
pub use order::{Order, Step, Trial, Tried};
pub use price::Price;
pub use protection::{Protected, Protection, Side};
pub use publication::{Entry, Name, Publication, Reason};
pub use report::{Answer, Changes, Report, Taken};
pub use run::{Blocks, Converted, Run};
pub use writer::{write_block, Written};
