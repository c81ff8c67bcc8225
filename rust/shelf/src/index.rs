//! Which book lists a symbol.

use quotebook::lent::SYMBOL_LEN;

/// A symbol of eleven bytes.
pub type Symbol = [u8; SYMBOL_LEN];

/// What the index knows of a listed symbol.
#[derive(Clone, Copy, PartialEq, Eq, Debug)]
pub struct Listing {
    /// The book that lists it.
    pub book: usize,
    /// Its round lot in shares, which is at most 100.
    pub round_lot: u32,
}

/// The place of a listed symbol, sixteen bytes: its first eight bytes; its last three and above them the
/// round lot; its book + 1. A free place has 0 there.
#[derive(Clone, Copy, Default)]
struct Place {
    first: u64,
    last_and_lot: u32,
    book: u32,
}

const LAST: u32 = 0xFF_FFFF;

/// A table of hashes from listed symbols to their books. At least half of its places are free, so that a
/// search ends soon, whatever is asked; it reads one line of memory, seldom two.
pub struct Index {
    places: Box<[Place]>,
}

impl Index {
    /// No symbols, and room for n.
    pub fn new(n: usize) -> Index {
        let places = (2 * n).next_power_of_two();
        Index {
            places: vec![Place::default(); places].into_boxed_slice(),
        }
    }

    /// The listing of a symbol, if it is listed.
    #[inline]
    pub fn find(&self, symbol: &Symbol) -> Option<Listing> {
        let (first, last) = parts(symbol);
        let mut at = hash(first, last);
        loop {
            let place = self.places[at & (self.places.len() - 1)];
            if place.book == 0 {
                return None;
            }
            if place.first == first && place.last_and_lot & LAST == last {
                return Some(Listing {
                    book: place.book as usize - 1,
                    round_lot: place.last_and_lot >> 24,
                });
            }
            at += 1;
        }
    }

    /// Lists a symbol that is not listed yet; fewer than n are.
    pub fn list(&mut self, symbol: &Symbol, listing: Listing) {
        let (first, last) = parts(symbol);
        let mask = self.places.len() - 1;
        let mut at = hash(first, last);
        while self.places[at & mask].book != 0 {
            at += 1;
        }
        self.places[at & mask] = Place {
            first,
            last_and_lot: last | listing.round_lot << 24,
            book: listing.book as u32 + 1,
        };
    }

    /// The bytes of the table.
    pub fn memory(&self) -> usize {
        size_of_val(&*self.places)
    }
}

/// The first eight bytes and the last three.
#[inline]
fn parts(symbol: &Symbol) -> (u64, u32) {
    let [a, b, c, d, e, f, g, h, i, j, k] = *symbol;
    let first = u64::from_le_bytes([a, b, c, d, e, f, g, h]);
    (first, u32::from_le_bytes([i, j, k, 0]))
}

/// One multiplication, its two halves put together.
#[inline]
fn hash(first: u64, last: u32) -> usize {
    let first = first ^ 0x9E37_79B9_7F4A_7C15;
    let last = u64::from(last) ^ 0xD6E8_FEB8_6659_FD93;
    let product = u128::from(first) * u128::from(last);
    (product as u64 ^ (product >> 64) as u64) as usize
}

#[cfg(test)]
mod tests {
    use super::*;

    /// 20,000 symbols of all lengths are found, 20,000 others are not, and searches are short.
    #[test]
    fn symbols_are_found() {
        let symbol = |at: usize| -> Symbol {
            let mut symbol = [b' '; SYMBOL_LEN];
            symbol[0] = b'A' + (at % 26) as u8;
            let text = at.to_string();
            symbol[1..=text.len()].copy_from_slice(text.as_bytes());
            if at.is_multiple_of(3) {
                symbol.rotate_right(SYMBOL_LEN - 1 - text.len());
            }
            symbol
        };
        let listing = |at: usize| Listing {
            book: at / 64,
            round_lot: [1, 10, 25, 50, 100][at % 5],
        };
        let mut index = Index::new(20_000);
        for at in 0..20_000 {
            assert_eq!(index.find(&symbol(at)), None);
            index.list(&symbol(at), listing(at));
        }
        for at in 0..20_000 {
            assert_eq!(index.find(&symbol(at)), Some(listing(at)));
            assert_eq!(index.find(&symbol(20_000 + at)), None);
        }
        let taken = |at: &usize| index.places[at & (index.places.len() - 1)].book != 0;
        let longest = (0..index.places.len())
            .map(|from| (from..).take_while(taken).count())
            .max();
        assert!(longest.is_some_and(|longest| longest < 60), "{longest:?}");
    }
}
