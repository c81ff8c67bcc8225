//! Trying an order: what it would take, step by step.

use std::fmt::{self, Display, Formatter};

use crate::lent::{STEPS_LEN, STEP_LEN};
use crate::number::{Number, Refusal};
use crate::price::Price;

/// What an order does.
#[derive(Clone, Copy, PartialEq, Eq, Hash, Debug)]
pub enum Order {
    /// It buys, at the offers.
    Buy,
    /// It sells, at the bids.
    Sell,
}

impl Order {
    /// The mark that the call takes: B or S.
    pub fn mark(self) -> u8 {
        match self {
            Order::Buy => b'B',
            Order::Sell => b'S',
        }
    }
}

/// What [`lent::try_order`](crate::lent::try_order) reports. After a refusal 0 and 0.
#[derive(Clone, Copy, PartialEq, Eq, Debug)]
pub struct Tried {
    /// [`Number::Done`], or why the call was refused.
    pub number: Number,
    /// How many steps stand in the output, 25 at most.
    pub steps: usize,
    /// The round lots not found.
    pub unfilled: u32,
}

impl Tried {
    /// The second of the three numbers is at most 25, the third at most 1,000,000.
    pub(crate) fn from_fields(number: Number, [_, steps, unfilled]: [u64; 3]) -> Tried {
        Tried {
            number,
            steps: steps as usize,
            unfilled: unfilled as u32,
        }
    }
}

/// One step of an order: so many round lots from an exchange, at its price. D is FINRA, with its best
/// quote.
#[derive(Clone, Copy, PartialEq, Eq, Debug)]
pub struct Step {
    /// The exchange's letter.
    pub letter: u8,
    /// Its price.
    pub price: Price,
    /// The round lots taken, one or more.
    pub lots: u32,
}

impl Step {
    /// The step that these bytes say: letter 1, price 8, lots 4.
    pub fn from_bytes(bytes: &[u8; STEP_LEN]) -> Step {
        let [letter, a, b, c, d, e, f, g, h, lots @ ..] = *bytes;
        Step {
            letter,
            price: Price(u64::from_be_bytes([a, b, c, d, e, f, g, h])),
            lots: u32::from_be_bytes(lots),
        }
    }
}

/// As `N 10.02 x 2`.
impl Display for Step {
    fn fmt(&self, f: &mut Formatter) -> fmt::Result {
        let letter = self.letter.escape_ascii();
        write!(f, "{letter} {} x {}", self.price, self.lots)
    }
}

/// An order that was tried: its steps in the order in which they are taken, and the lots not found.
///
/// Each step takes from the best exchange not yet used, in the order of the national best, as many
/// round lots as are wanted and shown. No other division of as many lots over the same quotes costs
/// less to buy or brings more to sell. Written out it is a list such as
/// `N 10.02 x 2, P 10.03 x 1; 4 not found`.
#[derive(Clone, PartialEq, Eq, Debug)]
pub struct Trial {
    /// What the order does.
    pub order: Order,
    /// The steps.
    pub steps: Vec<Step>,
    /// The round lots that nobody shows.
    pub unfilled: u32,
}

impl Trial {
    pub(crate) fn new(
        order: Order,
        told: Tried,
        bytes: &[u8; STEPS_LEN],
    ) -> Result<Trial, Refusal> {
        told.number.result()?;
        let (steps, _) = bytes.as_chunks();
        Ok(Trial {
            order,
            steps: steps[..told.steps].iter().map(Step::from_bytes).collect(),
            unfilled: told.unfilled,
        })
    }

    /// The round lots that the steps fill.
    pub fn filled(&self) -> u32 {
        self.steps.iter().map(|step| step.lots).sum()
    }

    /// What the order costs to buy or brings to sell: the exact sum of price times lots, in millionths.
    /// Times the symbol's round lot it is the money for the shares.
    pub fn total(&self) -> u128 {
        let parts = self.steps.iter();
        parts
            .map(|step| u128::from(step.price.0) * u128::from(step.lots))
            .sum()
    }

    /// The average price of a share, to the nearest millionth, half a millionth rounded up. None if
    /// nothing is filled. The exact quotient is that of [`Trial::total`] and [`Trial::filled`].
    pub fn average_price(&self) -> Option<Price> {
        let filled = u128::from(self.filled());
        let average = (2 * self.total() + filled).checked_div(2 * filled)?;
        // No more than the highest price.
        u64::try_from(average).ok().map(Price)
    }
}

/// The steps, and how many lots were not found.
impl Display for Trial {
    fn fmt(&self, f: &mut Formatter) -> fmt::Result {
        for (at, step) in self.steps.iter().enumerate() {
            let comma = if at == 0 { "" } else { ", " };
            write!(f, "{comma}{step}")?;
        }
        match (self.steps.is_empty(), self.unfilled) {
            (_, 0) => Ok(()),
            (true, lots) => write!(f, "{lots} not found"),
            (false, lots) => write!(f, "; {lots} not found"),
        }
    }
}
