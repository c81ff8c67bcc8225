//! The listed symbols, found by their eleven bytes.

use crate::terms::SYMBOL_LEN;

pub type Symbol = [u8; SYMBOL_LEN];

/// A to Z first, then printable bytes 33 to 126, then spaces to the end.
pub fn well_formed(symbol: &Symbol) -> bool {
    let text = symbol
        .iter()
        .position(|&byte| byte == b' ')
        .unwrap_or(SYMBOL_LEN);
    symbol[0].is_ascii_uppercase()
        && symbol[1..text].iter().all(u8::is_ascii_graphic)
        && symbol[text..].iter().all(|&byte| byte == b' ')
}

const FREE: u32 = u32::MAX;

/// Eleven bytes as two numbers that overlap in five bytes: two comparisons decide.
type Key = (u64, u64);

#[inline]
fn key(symbol: &Symbol) -> Key {
    let mut first = [0; 8];
    let mut last = [0; 8];
    first.copy_from_slice(&symbol[..8]);
    last.copy_from_slice(&symbol[3..]);
    (u64::from_le_bytes(first), u64::from_le_bytes(last))
}

#[inline]
fn mixed(key: Key) -> usize {
    let mixed = (key.0 ^ key.1.rotate_left(29)).wrapping_mul(0x9E37_79B9_7F4A_7C15);
    (mixed >> 32) as usize
}

/// A table from a symbol to its page. Only well-formed symbols are listed, so a malformed one is
/// never found.
pub struct Directory {
    /// Twice as many as symbols or more, a power of two, so that a free slot ends every search.
    slots: Vec<u32>,
    keys: Vec<Key>,
}

impl Directory {
    /// No symbols, and room for n.
    pub fn empty(n: u32) -> Directory {
        let n = n as usize;
        Directory {
            slots: vec![FREE; (2 * n).next_power_of_two()],
            keys: Vec::with_capacity(n),
        }
    }

    /// The bytes that a directory for n symbols keeps beside itself.
    pub fn memory(n: u32) -> usize {
        let slots = (2 * n as usize).next_power_of_two();
        slots * size_of::<u32>() + n as usize * size_of::<Key>()
    }

    /// The page of a symbol, if it is listed.
    #[inline]
    pub fn find(&self, symbol: &Symbol) -> Option<usize> {
        let key = key(symbol);
        let mut at = mixed(key);
        loop {
            let page = self.slots[at & (self.slots.len() - 1)];
            if page == FREE {
                return None;
            }
            if self.keys[page as usize] == key {
                return Some(page as usize);
            }
            at += 1;
        }
    }

    /// Lists a symbol that is not listed yet, with the next page.
    pub fn list(&mut self, symbol: &Symbol) {
        let key = key(symbol);
        let mask = self.slots.len() - 1;
        let mut at = mixed(key);
        while self.slots[at & mask] != FREE {
            at += 1;
        }
        self.slots[at & mask] = self.keys.len() as u32;
        self.keys.push(key);
    }
}
