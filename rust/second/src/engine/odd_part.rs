//! Odd-lot levels and the odd part of Q K, Q M and Q T: codes 60 to 64.

use super::bytes::{u32_at, u64_at};
use super::candidate::{Candidate, Side};
use super::mistake;
use crate::terms::{code, LEVELS_MAX};

/// The levels of one symbol, letter and side; a cell without a level is none.
#[derive(Clone, Copy)]
pub struct Levels([Candidate; LEVELS_MAX]);

impl Levels {
    pub const EMPTY: Levels = Levels([Candidate::NONE; LEVELS_MAX]);

    /// The best level by price, shares and time.
    #[inline]
    pub fn best<const M: u8>(&self) -> Candidate {
        let mut best = Candidate::NONE;
        for level in &self.0 {
            if level.beats::<M>(&best) {
                best = *level;
            }
        }
        best
    }

    /// Zero shares remove the level of that price, if any; a known price is replaced; another is
    /// added. Answers false, and does nothing, if that would make a fifth level.
    #[inline]
    fn apply<const M: u8>(&mut self, mut item: Candidate) -> bool {
        let known = self.cell(item.rank);
        match (known, item.size) {
            (Some(cell), 0) => self.0[cell] = Candidate::NONE,
            (None, 0) if M != mistake::ZERO_SHARES_ADDED => {}
            (Some(cell), _) => {
                if M == mistake::REPLACED_KEEPS_TIME {
                    item.time = self.0[cell].time;
                }
                self.0[cell] = item;
            }
            (None, _) => match self.free_cell::<M>() {
                Some(cell) => self.0[cell] = item,
                None => return false,
            },
        }
        true
    }

    /// The cell of the level with this rank.
    #[inline]
    fn cell(&self, rank: u64) -> Option<usize> {
        self.0.iter().position(|level| level.rank == rank)
    }

    #[inline]
    fn free_cell<const M: u8>(&self) -> Option<usize> {
        let standing = self.0.iter().filter(|level| level.stands());
        if M == mistake::THREE_LEVELS && standing.count() == 3 {
            return None;
        }
        self.cell(Candidate::NONE.rank)
    }
}

const ITEM_LEN: usize = 12;

/// The length of an odd part's items.
#[inline]
pub fn items_len(bids: u8, offers: u8) -> usize {
    ITEM_LEN * (usize::from(bids) + usize::from(offers))
}

/// An odd part whose length is right: the clear mark, the two counts, then the bids and the offers,
/// each with price and shares.
pub struct OddPart<'a> {
    pub clear: u8,
    pub bids: u8,
    pub offers: u8,
    pub items: &'a [u8],
    /// The name and the time of the levels that the part leaves.
    pub name: u32,
    pub time: u64,
}

impl OddPart<'_> {
    /// Space and no items: nothing to do.
    #[inline]
    pub fn is_idle(&self) -> bool {
        self.clear == b' ' && self.items.is_empty()
    }

    /// Works on copies of the levels, sides by levels, and gives the changed ones or the code that
    /// refuses the part. All items are checked for 62 and 63 before the first is applied.
    #[inline]
    pub fn judge<const M: u8>(
        &self,
        round_lot: u32,
        mut levels: [Levels; 2],
    ) -> Result<[Levels; 2], u8> {
        if !matches!(self.clear, b' ' | b'B' | b'S' | b'X') {
            return Err(code::CLEAR_MARK);
        }
        if usize::from(self.bids) > LEVELS_MAX || usize::from(self.offers) > LEVELS_MAX {
            return Err(code::ITEM_COUNT);
        }
        if M == mistake::PRICES_BEFORE_SHARES && self.items().any(|(_, price, _)| price == 0) {
            return Err(code::ITEM_PRICE);
        }
        if M != mistake::FIFTH_BEFORE_FAULT {
            for (_, price, shares) in self.items() {
                check_item(price, shares, round_lot)?;
            }
        }
        self.clear(&mut levels);
        for (side, price, shares) in self.items() {
            if M == mistake::FIFTH_BEFORE_FAULT {
                check_item(price, shares, round_lot)?;
            }
            let item = Candidate {
                rank: side.rank(price),
                time: self.time,
                size: shares,
                name: self.name,
            };
            if !levels[side as usize].apply::<M>(item) {
                return Err(code::FIFTH_LEVEL);
            }
        }
        Ok(levels)
    }

    /// The clear mark: space none, B bids, S offers, X both.
    #[inline]
    pub fn clear(&self, levels: &mut [Levels; 2]) {
        if matches!(self.clear, b'B' | b'X') {
            levels[Side::Bid as usize] = Levels::EMPTY;
        }
        if matches!(self.clear, b'S' | b'X') {
            levels[Side::Offer as usize] = Levels::EMPTY;
        }
    }

    /// Side, price and shares of each item, the bids first.
    #[inline]
    fn items(&self) -> impl Iterator<Item = (Side, u64, u32)> + '_ {
        let bids = usize::from(self.bids);
        let items = self.items.chunks_exact(ITEM_LEN).enumerate();
        items.map(move |(i, item)| {
            let side = if i < bids { Side::Bid } else { Side::Offer };
            (side, u64_at(item, 0), u32_at(item, 8))
        })
    }
}

/// Checks 62 and 63 of one item.
#[inline]
fn check_item(price: u64, shares: u32, round_lot: u32) -> Result<(), u8> {
    if price == 0 {
        return Err(code::ITEM_PRICE);
    }
    if shares >= round_lot {
        return Err(code::ITEM_SHARES);
    }
    Ok(())
}
