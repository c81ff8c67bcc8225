//! Whether a price is protected: the question and its answer.

use std::fmt::{self, Display, Formatter};

use crate::number::{Number, Refusal};
use crate::price::Price;

/// The side that is asked about.
#[derive(Clone, Copy, PartialEq, Eq, Hash, Debug)]
pub enum Side {
    /// Does anyone bid the price or more?
    Bids,
    /// Does anyone offer at the price or less?
    Offers,
}

impl Side {
    /// The mark that the call takes: B or S.
    pub fn mark(self) -> u8 {
        match self {
            Side::Bids => b'B',
            Side::Offers => b'S',
        }
    }
}

/// What [`lent::is_protected`](crate::lent::is_protected) reports. After a refusal no and 0.
#[derive(Clone, Copy, PartialEq, Eq, Debug)]
pub struct Protected {
    /// [`Number::Done`], or why the call was refused.
    pub number: Number,
    /// Whether the price is protected.
    pub yes: bool,
    /// How many letters were looked at: the position of the first that answers yes, or 26.
    pub looked: u8,
}

impl Protected {
    /// The second of the three numbers is 1 or 0, the third at most 26.
    pub(crate) fn from_fields(number: Number, [_, yes, looked]: [u64; 3]) -> Protected {
        Protected {
            number,
            yes: yes == 1,
            looked: looked as u8,
        }
    }
}

/// Whether a price is protected, and by whom.
///
/// It is if an exchange's quote that counts, or the FINRA best for D, bids the price or more (or
/// offers at the price or less). Letters are looked at from A; the first that does is named. Written
/// out it is a sentence such as `yes: N bids 10.00 or more`.
#[derive(Clone, Copy, PartialEq, Eq, Debug)]
pub struct Protection {
    /// The side that was asked about.
    pub side: Side,
    /// The price that was asked about.
    pub price: Price,
    /// The first letter, from A on, that protects the price; none if no letter does.
    pub letter: Option<u8>,
}

impl Protection {
    pub(crate) fn new(side: Side, price: Price, told: Protected) -> Result<Protection, Refusal> {
        told.number.result()?;
        Ok(Protection {
            side,
            price,
            letter: told.yes.then(|| b'A' - 1 + told.looked),
        })
    }

    /// Whether the price is protected.
    pub fn is_yes(&self) -> bool {
        self.letter.is_some()
    }

    /// How many letters were looked at: 1 for A up to 26 for Z, and 26 for no.
    pub fn looked(&self) -> u8 {
        self.letter.unwrap_or(b'Z') - b'A' + 1
    }
}

/// The answer, who gives it, and the question.
impl Display for Protection {
    fn fmt(&self, f: &mut Formatter) -> fmt::Result {
        match self.letter {
            Some(letter) => write!(f, "yes: {}", letter.escape_ascii())?,
            None => write!(f, "no: nobody")?,
        }
        match self.side {
            Side::Bids => write!(f, " bids {} or more", self.price),
            Side::Offers => write!(f, " offers at {} or less", self.price),
        }
    }
}
