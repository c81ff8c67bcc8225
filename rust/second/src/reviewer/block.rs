//! The line checks 30 to 35, as the reviewer makes them.

use super::fields::{number as field, Kind};
use crate::terms::{number, BLOCK_MAX, BLOCK_MIN, MESSAGES_MAX, MESSAGE_MIN};

/// A block that no check refuses.
pub struct Taken<'a> {
    pub messages: Vec<&'a [u8]>,
    /// The difference d that is reported.
    pub gap: u32,
    /// The line's next expected number, none if the block does not move the line.
    pub next_expected: Option<u32>,
}

/// The checks in their order; `expected` is the line's next expected number.
pub fn check(block: &[u8], day_open: bool, expected: u32) -> Result<Taken<'_>, u8> {
    if block.len() < BLOCK_MIN || block.len() > BLOCK_MAX {
        return Err(number::BLOCK_LENGTH);
    }
    if field(&block[2..4]) != block.len() as u64 {
        return Err(number::BLOCK_LENGTH);
    }
    if block[0] != 1 {
        return Err(number::VERSION);
    }
    if field(&block[8..10]) != checksum(block) {
        return Err(number::CHECKSUM);
    }
    let messages = messages(block).ok_or(number::OFFSETS)?;
    if messages.len() > 1 && messages.iter().any(|message| message[0] == b'C') {
        return Err(number::CONTROL_NOT_ALONE);
    }
    let skips = matches!(
        Kind::of(messages[0]),
        Some(Kind::Inquiry | Kind::Integrity | Kind::Test)
    );
    if skips {
        return Ok(Taken {
            messages,
            gap: 0,
            next_expected: None,
        });
    }
    if !day_open {
        return Err(number::BLOCK_WHILE_CLOSED);
    }
    let modulus = 1u64 << 32;
    let sequence = field(&block[4..8]);
    let difference = (sequence + modulus - u64::from(expected)) % modulus;
    if difference > 2_147_483_647 {
        return Err(number::DUPLICATE);
    }
    let next = (sequence + messages.len() as u64) % modulus;
    Ok(Taken {
        messages,
        gap: difference as u32,
        next_expected: Some(next as u32),
    })
}

/// "The sum of all block bytes, these two taken as zero, modulo 65,536."
fn checksum(block: &[u8]) -> u64 {
    let mut sum = 0;
    for (i, &byte) in block.iter().enumerate() {
        if i != 8 && i != 9 {
            sum = (sum + u64::from(byte)) % 65_536;
        }
    }
    sum
}

/// The messages of a block, none if the count or an offset breaks a rule.
fn messages(block: &[u8]) -> Option<Vec<&[u8]>> {
    let count = usize::from(block[1]);
    if !(1..=MESSAGES_MAX).contains(&count) {
        return None;
    }
    let mut bounds = Vec::new();
    for i in 0..count {
        let offset = block.get(10 + 2 * i..12 + 2 * i)?;
        bounds.push(field(offset) as usize);
    }
    if bounds[0] != 10 + 2 * count {
        return None;
    }
    bounds.push(block.len());
    let mut messages = Vec::new();
    for pair in bounds.windows(2) {
        let message = block.get(pair[0]..pair[1])?;
        if message.len() < MESSAGE_MIN {
            return None;
        }
        messages.push(message);
    }
    Some(messages)
}
