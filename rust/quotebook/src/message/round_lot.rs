//! Quotes in round lots: those of an exchange (Q K) and of a FINRA maker (Q U).

use super::odd_lot::OddPart;
use super::{Clear, Condition, Header, Maker, MakerCondition, Shown, Symbol};
use crate::price::Price;

/// What Q K and Q U have in common: symbol, condition and two sides.
#[derive(Clone, Copy, PartialEq, Eq, Debug)]
struct Round<C> {
    header: Header,
    symbol: Symbol,
    condition: C,
    bid: Shown,
    offer: Shown,
}

impl<C: Into<u8>> Round<C> {
    fn new(header: Header, symbol: Symbol, condition: C) -> Round<C> {
        Round {
            header,
            symbol,
            condition,
            bid: Shown::default(),
            offer: Shown::default(),
        }
    }

    /// Header, symbol 20-30, condition 31, bid 32-43, offer 44-55.
    fn of_type(self, kind: [u8; 2]) -> Vec<u8> {
        let mut message = self.header.of_type(kind);
        message.extend(self.symbol.as_ref());
        message.push(self.condition.into());
        self.bid.write(&mut message);
        self.offer.write(&mut message);
        message
    }
}

/// Q K: an exchange's quote in round lots, with odd lots behind it if it has any.
///
/// It replaces its letter's quote. D's line does not take it (44).
#[derive(Clone, PartialEq, Eq, Debug)]
pub struct RoundLotQuote {
    round: Round<Condition>,
    odd: OddPart,
}

impl RoundLotQuote {
    /// A regular quote with nothing on either side and no odd lots.
    pub fn new(header: Header, symbol: Symbol) -> RoundLotQuote {
        RoundLotQuote {
            round: Round::new(header, symbol, Condition::Regular),
            odd: OddPart::IDLE,
        }
    }

    /// The condition, [`Condition::Regular`] if none is given.
    pub fn condition(mut self, condition: Condition) -> RoundLotQuote {
        self.round.condition = condition;
        self
    }

    /// The bid: a price, and a size in round lots. Price 0 with size 0 is no bid, a price with size 0
    /// an indication; a size with price 0 is refused (47).
    pub fn bid(mut self, price: Price, size: u32) -> RoundLotQuote {
        self.round.bid = Shown { price, size };
        self
    }

    /// The offer, as [`bid`](RoundLotQuote::bid).
    pub fn offer(mut self, price: Price, size: u32) -> RoundLotQuote {
        self.round.offer = Shown { price, size };
        self
    }

    /// The odd lots to remove first, [`Clear::Nothing`] if none are given.
    pub fn clear(mut self, clear: Clear) -> RoundLotQuote {
        self.odd.clear = clear;
        self
    }

    /// One more odd bid, as [`OddLotQuote::bid`](super::OddLotQuote::bid).
    pub fn odd_bid(mut self, price: Price, shares: u32) -> RoundLotQuote {
        self.odd.add_bid(price, shares);
        self
    }

    /// One more odd offer, as [`OddLotQuote::bid`](super::OddLotQuote::bid).
    pub fn odd_offer(mut self, price: Price, shares: u32) -> RoundLotQuote {
        self.odd.add_offer(price, shares);
        self
    }

    /// The message: 60 bytes, and 12 for each odd lot.
    pub fn to_bytes(&self) -> Vec<u8> {
        let mut message = self.round.of_type(*b"QK");
        self.odd.write(&mut message, &[0]);
        message
    }
}

/// Q U: a FINRA maker's quote in round lots.
///
/// It replaces the maker's quote; with nothing on either side the maker leaves. Only D's line takes it
/// (else 44). While sixteen makers stand for a symbol, another is refused (49).
#[derive(Clone, PartialEq, Eq, Debug)]
pub struct MakerQuote {
    round: Round<MakerCondition>,
    maker: Maker,
}

impl MakerQuote {
    /// An open maker's quote with nothing on either side.
    pub fn new(header: Header, symbol: Symbol, maker: Maker) -> MakerQuote {
        MakerQuote {
            round: Round::new(header, symbol, MakerCondition::Open),
            maker,
        }
    }

    /// The condition, [`MakerCondition::Open`] if none is given.
    pub fn condition(mut self, condition: MakerCondition) -> MakerQuote {
        self.round.condition = condition;
        self
    }

    /// The bid, as [`RoundLotQuote::bid`].
    pub fn bid(mut self, price: Price, size: u32) -> MakerQuote {
        self.round.bid = Shown { price, size };
        self
    }

    /// The offer, as [`RoundLotQuote::bid`].
    pub fn offer(mut self, price: Price, size: u32) -> MakerQuote {
        self.round.offer = Shown { price, size };
        self
    }

    /// The message: 60 bytes.
    pub fn to_bytes(&self) -> Vec<u8> {
        let mut message = self.round.of_type(*b"QU");
        message.extend(self.maker.as_ref());
        message
    }
}
