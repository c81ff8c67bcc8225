//! A quote as its message shows it, and which of its sides count.

use super::bytes::{u32_at, u64_at};
use super::candidate::{Candidate, Side};
use super::mistake;
use crate::terms::code;

/// The round part of Q K, or the quote of Q U.
pub struct Quote {
    pub condition: u8,
    pub time: u64,
    /// Bid and offer: price, and size in round lots.
    pub shown: [(u64, u32); 2],
}

impl Quote {
    /// Reads bytes 4 to 55, which Q K and Q U have alike.
    #[inline]
    pub fn read(message: &[u8; 60]) -> Quote {
        Quote {
            condition: message[31],
            time: u64_at(message, 4),
            shown: [
                (u64_at(message, 32), u32_at(message, 40)),
                (u64_at(message, 44), u32_at(message, 52)),
            ],
        }
    }

    /// Check 47: price 0 with a size on either side.
    #[inline]
    pub fn check_sizes<const M: u8>(&self) -> Result<(), u8> {
        let [bid, offer] = self.shown.map(|(price, size)| price == 0 && size > 0);
        if bid || offer && M != mistake::OFFER_UNCHECKED {
            return Err(code::SIZE_WITHOUT_PRICE);
        }
        Ok(())
    }

    /// Both sides are 0 and 0.
    #[inline]
    pub fn is_empty<const M: u8>(&self) -> bool {
        if M == mistake::INDICATION_FREES {
            return self.shown.iter().all(|&(_, size)| size == 0);
        }
        self.shown == [(0, 0); 2]
    }

    /// One side as a candidate under the name that a publication shows, and whether it counts.
    #[inline]
    pub fn side<const M: u8>(&self, side: Side, name: u32) -> (Candidate, bool) {
        let (price, size) = self.shown[side as usize];
        let candidate = Candidate {
            rank: side.rank(price),
            time: self.time,
            size,
            name,
        };
        (candidate, counts::<M>(self.condition, side, price, size))
    }
}

/// Whether this quote lets its letter's levels rank on a side: by its condition alone, "whatever price
/// and size it shows".
#[inline]
pub fn ranks_levels<const M: u8>(quote: &Quote, side: Side) -> bool {
    let [bid, offer] = Side::BOTH.map(|side| admits::<M>(quote.condition, side));
    match M {
        mistake::CLOSED_RANKS => true,
        mistake::ONE_SIDE_HIDES_BOTH => bid && offer,
        mistake::EMPTY_SIDE_HIDES => quote.side::<M>(side, 0).1,
        _ => [bid, offer][side as usize],
    }
}

/// A side counts if price and size are above zero and the condition admits it. A price with size 0
/// is an indication and does not count.
#[inline]
pub fn counts<const M: u8>(condition: u8, side: Side, price: u64, size: u32) -> bool {
    let sized = size > 0 || M == mistake::INDICATION_RANKED;
    price > 0 && sized && admits::<M>(condition, side)
}

/// A, B, H, O, R, W admit both sides, E the offer, F the bid, C, L, N, U neither.
#[inline]
fn admits<const M: u8>(condition: u8, side: Side) -> bool {
    match condition {
        b'A' | b'B' | b'H' | b'O' | b'R' | b'W' => true,
        b'E' => side == Side::Offer || M == mistake::E_ADMITS_BID,
        b'F' => side == Side::Bid,
        _ => false,
    }
}

/// Q K takes all twelve conditions but L.
#[inline]
pub fn round_lot_takes(condition: u8) -> bool {
    matches!(
        condition,
        b'A' | b'B' | b'C' | b'E' | b'F' | b'H' | b'N' | b'O' | b'R' | b'U' | b'W'
    )
}

/// Q U takes R and L.
#[inline]
pub fn maker_takes(condition: u8) -> bool {
    matches!(condition, b'R' | b'L')
}
