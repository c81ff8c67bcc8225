//! The levels that accepted odd parts leave, as far as cases of T-07 are told by them.

/// The prices of one letter's levels in one symbol, bids and offers.
#[derive(Clone, Default)]
pub struct Prices([Vec<u64>; 2]);

impl Prices {
    /// Whether a level stands on a side.
    pub fn stand(&self, side: usize) -> bool {
        !self.0[side].is_empty()
    }

    /// The clear mark, then the items of an accepted Q K, Q M or Q T; whether a level came in on
    /// each side.
    pub fn take(&mut self, message: &[u8]) -> [bool; 2] {
        let (part, items) = match message[1] {
            b'K' => (56, 60),
            _ => (31, 36),
        };
        let mut added = [false; 2];
        for (side, marks) in [b"BX", b"SX"].into_iter().enumerate() {
            if marks.contains(&message[part]) {
                self.0[side].clear();
            }
        }
        for (i, item) in message[items..].chunks_exact(12).enumerate() {
            let side = usize::from(i >= usize::from(message[part + 1]));
            let price = item[..8]
                .iter()
                .fold(0, |price, &byte| price << 8 | u64::from(byte));
            self.0[side].retain(|&standing| standing != price);
            if item[8..].iter().any(|&byte| byte != 0) {
                self.0[side].push(price);
                added[side] = true;
            }
        }
        added
    }
}
