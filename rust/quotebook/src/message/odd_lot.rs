//! Odd lots: behind a round lot quote (Q K), or in a message of their own (Q M, FINRA's Q T).

use super::{Clear, Header, Shown, Symbol};
use crate::price::Price;

/// A clear mark, then bids, then offers.
#[derive(Clone, PartialEq, Eq, Debug)]
pub(super) struct OddPart {
    pub(super) clear: Clear,
    bids: Vec<Shown>,
    offers: Vec<Shown>,
}

impl OddPart {
    /// Removes nothing and puts nothing in.
    pub(super) const IDLE: OddPart = OddPart {
        clear: Clear::Nothing,
        bids: Vec::new(),
        offers: Vec::new(),
    };

    pub(super) fn add_bid(&mut self, price: Price, size: u32) {
        self.bids.push(Shown { price, size });
    }

    pub(super) fn add_offer(&mut self, price: Price, size: u32) {
        self.offers.push(Shown { price, size });
    }

    /// Clear mark, both counts, the zeros of the message's type, the items.
    pub(super) fn write(&self, message: &mut Vec<u8>, zeros: &[u8]) {
        message.extend([self.clear.into(), count(&self.bids), count(&self.offers)]);
        message.extend(zeros);
        for item in self.bids.iter().chain(&self.offers) {
            item.write(message);
        }
    }
}

/// More than 255 items take over 3,000 bytes: no block has room for them, so no count is cut.
fn count(items: &[Shown]) -> u8 {
    u8::try_from(items.len()).unwrap_or(u8::MAX)
}

/// A letter's odd lots: Q M, or Q T under the letter D, which is FINRA.
///
/// If one odd lot is refused, none is taken and nothing removed.
#[derive(Clone, PartialEq, Eq, Debug)]
pub struct OddLotQuote {
    header: Header,
    symbol: Symbol,
    odd: OddPart,
}

impl OddLotQuote {
    /// Removes nothing and puts nothing in.
    pub fn new(header: Header, symbol: Symbol) -> OddLotQuote {
        OddLotQuote {
            header,
            symbol,
            odd: OddPart::IDLE,
        }
    }

    /// The odd lots to remove first, [`Clear::Nothing`] if none are given.
    pub fn clear(mut self, clear: Clear) -> OddLotQuote {
        self.odd.clear = clear;
        self
    }

    /// One more odd bid: shares at a price, or 0 shares to remove that price.
    ///
    /// A price of 0 (62), a round lot of shares or more (63) and a fifth bid (61) are refused. With so
    /// many that no block has room for them, the block can't be written (71).
    pub fn bid(mut self, price: Price, shares: u32) -> OddLotQuote {
        self.odd.add_bid(price, shares);
        self
    }

    /// One more odd offer, as [`bid`](OddLotQuote::bid).
    pub fn offer(mut self, price: Price, shares: u32) -> OddLotQuote {
        self.odd.add_offer(price, shares);
        self
    }

    /// The message: 36 bytes, and 12 for each odd lot.
    pub fn to_bytes(&self) -> Vec<u8> {
        let is_finra = self.header.letter == b'D';
        let mut message = self.header.of_type(if is_finra { *b"QT" } else { *b"QM" });
        message.extend(self.symbol.as_ref());
        self.odd.write(&mut message, &[0, 0]);
        message
    }
}
