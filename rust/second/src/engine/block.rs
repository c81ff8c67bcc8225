//! The block around the messages: checks 30 to 34.

use super::bytes::{u16_at, u32_at};
use super::mistake;
use crate::terms::{number, BLOCK_MAX, BLOCK_MIN, MESSAGES_MAX, MESSAGE_MIN};

const VERSION: u8 = 1;
const HEADER_LEN: usize = 10;
const OFFSET_LEN: usize = 2;

/// A block that passed checks 30 to 33.
pub struct Block<'a> {
    bytes: &'a [u8],
    count: usize,
    control_among_others: bool,
}

impl<'a> Block<'a> {
    /// Checks 30 to 33 in their order; what check 34 asks is found on the way.
    #[inline]
    pub fn read<const M: u8>(bytes: &'a [u8]) -> Result<Block<'a>, u8> {
        let len = bytes.len();
        if !(BLOCK_MIN..=BLOCK_MAX).contains(&len) || usize::from(u16_at(bytes, 2)) != len {
            return Err(number::BLOCK_LENGTH);
        }
        if bytes[0] != VERSION {
            return Err(number::VERSION);
        }
        if checksum(bytes) != u16_at(bytes, 8) {
            return Err(number::CHECKSUM);
        }
        let mut block = Block {
            bytes,
            count: usize::from(bytes[1]),
            control_among_others: false,
        };
        block.check_offsets::<M>().ok_or(number::OFFSETS)?;
        Ok(block)
    }

    /// The first offset is 10 + 2c and each message is at least 20 bytes.
    #[inline]
    fn check_offsets<const M: u8>(&mut self) -> Option<()> {
        let table_end = HEADER_LEN + OFFSET_LEN * self.count;
        let most = if M == mistake::FULL_BLOCK_REFUSED {
            MESSAGES_MAX - 1
        } else {
            MESSAGES_MAX
        };
        let fits = table_end + MESSAGE_MIN * self.count <= self.bytes.len();
        if self.count == 0 || self.count > most || !fits || self.offset(0) != table_end {
            return None;
        }
        for i in 0..self.count {
            let (from, to) = (self.offset(i), self.end(i));
            if to > self.bytes.len() || from + MESSAGE_MIN > to {
                return None;
            }
            self.control_among_others |= self.count > 1 && is_control::<M>(&self.bytes[from..to]);
        }
        Some(())
    }

    /// Check 34: a control message is alone in its block.
    #[inline]
    pub fn control_not_alone(&self) -> bool {
        self.control_among_others
    }

    #[inline]
    pub fn count(&self) -> usize {
        self.count
    }

    /// The sequence number of the first message.
    #[inline]
    pub fn sequence(&self) -> u32 {
        u32_at(self.bytes, 4)
    }

    /// Message i: the part of the block from its offset to the next, the last to the end.
    #[inline]
    pub fn message(&self, i: usize) -> &'a [u8] {
        &self.bytes[self.offset(i)..self.end(i)]
    }

    #[inline]
    fn offset(&self, i: usize) -> usize {
        usize::from(u16_at(self.bytes, HEADER_LEN + OFFSET_LEN * i))
    }

    #[inline]
    fn end(&self, i: usize) -> usize {
        if i + 1 < self.count {
            self.offset(i + 1)
        } else {
            self.bytes.len()
        }
    }
}

/// The category alone makes a control message, known type or not.
#[inline]
fn is_control<const M: u8>(message: &[u8]) -> bool {
    let known = matches!(message[1], b'I' | b'T' | b'C' | b'O' | b'5');
    message[0] == b'C' && (known || M != mistake::KNOWN_CONTROL_ALONE)
}

/// The sum of all block bytes, bytes 8 and 9 taken as zero, modulo 65,536.
#[inline]
fn checksum(bytes: &[u8]) -> u16 {
    let all: u32 = bytes.iter().map(|&byte| u32::from(byte)).sum();
    (all - u32::from(bytes[8]) - u32::from(bytes[9])) as u16
}
