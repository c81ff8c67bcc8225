//! One allowance for all lines (T-14): what is left of each line's share and of the spare in this tick.

use super::mistake;
use crate::terms::{number, LINES};

/// The blocks of a tick, if an allowance is set.
#[derive(Clone, Copy)]
pub struct Allowance {
    shares: [u8; LINES],
    spare: u32,
    /// Charged in this tick to each line's share, and to the spare.
    share_charged: [u8; LINES],
    spare_charged: u32,
}

impl Allowance {
    /// Checks 84 and 85.
    pub fn set(blocks: u32, shares: &[u8]) -> Result<Allowance, u8> {
        if !(1..=255).contains(&blocks) {
            return Err(number::ALLOWANCE);
        }
        let shares: [u8; LINES] = shares.try_into().map_err(|_| number::SHARES)?;
        let promised: u32 = shares.iter().map(|&share| u32::from(share)).sum();
        let spare = blocks.checked_sub(promised).ok_or(number::SHARES)?;
        Ok(Allowance {
            shares,
            spare,
            share_charged: [0; LINES],
            spare_charged: 0,
        })
    }

    /// Nothing is charged when a tick starts.
    pub fn tick<const M: u8>(&mut self) {
        self.share_charged = [0; LINES];
        if M != mistake::TICK_KEEPS_SPARE {
            self.spare_charged = 0;
        }
    }

    /// Charges a block of a line to its share first, then to the spare; 86 if both are used.
    #[inline]
    pub fn charge<const M: u8>(&mut self, line: usize) -> Result<(), u8> {
        let spare_left = self.spare_charged < self.spare;
        if M == mistake::SPARE_FIRST && spare_left {
            self.spare_charged += 1;
        } else if self.share_charged[line] < self.shares[line] {
            self.share_charged[line] += 1;
        } else if spare_left && M != mistake::NO_SPARE {
            self.spare_charged += 1;
        } else {
            return Err(number::USED_UP);
        }
        Ok(())
    }
}
