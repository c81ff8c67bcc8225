//! Messages from typed values: the bytes of every message that document 01 knows.
//!
//! Prices are read from decimals (`"10.02".parse()?`) or given in millionths (`Price(10_020_000)`),
//! symbols and makers are text that is filled up with spaces. The types leave no wrong layout: no
//! other length, condition or clear mark. A builder refuses only what its field can't hold
//! ([`FieldError`]); whether a value is right for a book, the book says by a [`Code`]. So these can
//! be built, and a book refuses them:
//! - a letter that is not the line's (41), and a type on the wrong line (44);
//! - a symbol that is malformed or not listed (45), a malformed maker (48);
//! - a size without a price (47);
//! - a trading status on another line than the symbol's primary letter's (76);
//! - over four odd lots of a side (61), one at price 0 (62) or of a round lot or more (63).
//!
//! ```
//! use quotebook::message::{Header, MakerQuote, RoundLotQuote};
//! use quotebook::Price;
//!
//! # fn main() -> Result<(), quotebook::FieldError> {
//! let quote = RoundLotQuote::new(Header::new(b'N', 7), "ZT".parse()?)
//!     .bid("10.00".parse()?, 3)
//!     .offer(Price(10_020_000), 2)
//!     .odd_bid("10.01".parse()?, 40);
//! assert_eq!(quote.to_bytes().len(), 72);
//!
//! let maker = MakerQuote::new(Header::new(b'D', 8), "ZT".parse()?, "ETMM".parse()?)
//!     .bid("9.99".parse()?, 1);
//! assert_eq!(maker.to_bytes().len(), 60);
//! # Ok(())
//! # }
//! ```
//!
//! [`Code`]: crate::Code
//! [`FieldError`]: crate::FieldError

mod marks;
mod odd_lot;
mod round_lot;
mod text;

pub use marks::{Clear, Condition, MakerCondition, TradingStatus};
pub use odd_lot::OddLotQuote;
pub use round_lot::{MakerQuote, RoundLotQuote};
pub(crate) use text::filled_up;
pub use text::{Maker, Symbol};

use crate::price::Price;

/// What every message begins with.
#[derive(Clone, Copy, PartialEq, Eq, Debug)]
pub struct Header {
    /// The sender's letter. A book takes the letter of the line alone (else 41).
    pub letter: u8,
    /// The time, by which quotes of one price and size are ranked. It may go back.
    pub timestamp: u64,
    /// A number for the sender's own use. The book does not read it.
    pub reference: u64,
}

impl Header {
    /// A header with reference number 0.
    pub fn new(letter: u8, timestamp: u64) -> Header {
        Header {
            letter,
            timestamp,
            reference: 0,
        }
    }

    /// The 20 bytes: category and type, letter, zero, timestamp, reference number.
    fn of_type(self, [category, kind]: [u8; 2]) -> Vec<u8> {
        let mut message = vec![category, kind, self.letter, 0];
        message.extend(self.timestamp.to_be_bytes());
        message.extend(self.reference.to_be_bytes());
        message
    }
}

/// C I, an inquiry. Like C T and C 5 it is taken on a closed day too and moves no line.
pub fn inquiry(header: Header) -> Vec<u8> {
    header.of_type(*b"CI")
}

/// C T, line integrity.
pub fn line_integrity(header: Header) -> Vec<u8> {
    header.of_type(*b"CT")
}

/// C C, FINRA Close: closes every maker's quotes. On D's line only (else 44).
pub fn finra_close(header: Header) -> Vec<u8> {
    header.of_type(*b"CC")
}

/// C O, FINRA Open: opens every maker's quotes. On D's line only (else 44).
pub fn finra_open(header: Header) -> Vec<u8> {
    header.of_type(*b"CO")
}

/// C 5, a test: 95 more bytes, hex 20 to 7E in order.
pub fn test(header: Header) -> Vec<u8> {
    let mut message = header.of_type(*b"C5");
    message.extend(0x20..=0x7E);
    message
}

/// T S, a symbol's trading status. On lines of the symbol's primary letter only (else 76); it may
/// stand among quotes.
pub fn trading_status(header: Header, symbol: Symbol, status: TradingStatus) -> Vec<u8> {
    let mut message = header.of_type(*b"TS");
    message.extend(symbol.as_ref());
    message.push(status.into());
    message
}

/// A price with its size: round lots, or the shares of an odd lot.
#[derive(Clone, Copy, PartialEq, Eq, Debug, Default)]
struct Shown {
    price: Price,
    size: u32,
}

impl Shown {
    /// Price 8 bytes, size 4.
    fn write(self, message: &mut Vec<u8>) {
        message.extend(self.price.0.to_be_bytes());
        message.extend(self.size.to_be_bytes());
    }
}
