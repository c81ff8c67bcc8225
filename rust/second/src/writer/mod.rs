//! The writer of blocks (document 02, T-01): messages laid end to end become the one block of document
//! 01 that carries them.

pub mod mistake;
pub mod reached;

use crate::terms::{number, BLOCK_MAX, MESSAGES_MAX, MESSAGE_MIN};

const VERSION: u8 = 1;
const HEADER_LEN: usize = 10;
const OFFSET_LEN: usize = 2;

/// What the writer answers.
#[derive(Clone, Copy, PartialEq, Eq, Debug)]
pub struct Written {
    /// 0 or the refusal.
    pub number: u8,
    /// The bytes written, 0 after a refusal.
    pub len: usize,
}

impl Written {
    /// A refusal carries its number and 0 for all else.
    pub fn refused(number: u8) -> Written {
        Written { number, len: 0 }
    }
}

/// The arguments of one call of a writer.
#[derive(Clone, PartialEq, Eq, Debug)]
pub struct Writing {
    /// The messages' bytes, laid end to end.
    pub messages: Vec<u8>,
    /// Their lengths.
    pub lengths: Vec<u32>,
    /// The sequence number of the first.
    pub sequence: u32,
    /// The length of the output.
    pub room: usize,
}

impl Writing {
    /// The length of the block that would carry the bytes lent.
    pub fn needed(&self) -> usize {
        HEADER_LEN + OFFSET_LEN * self.lengths.len() + self.messages.len()
    }

    /// What a writer answers, and every byte of an output that had a pattern.
    pub fn run(&self, write: Write) -> (Written, Vec<u8>) {
        let mut block: Vec<u8> = (0..self.room).map(|at| 0xA5 ^ at as u8).collect();
        let written = write(&self.messages, &self.lengths, self.sequence, &mut block);
        (written, block)
    }
}

/// A writer: messages, their lengths, the sequence number and the output.
pub type Write = fn(&[u8], &[u32], u32, &mut [u8]) -> Written;

/// The writer, under a planted mistake (0 for none).
pub fn write<const M: u8>(
    messages: &[u8],
    lengths: &[u32],
    sequence: u32,
    block: &mut [u8],
) -> Written {
    let len = HEADER_LEN + OFFSET_LEN * lengths.len() + messages.len();
    let number = check::<M>(messages, lengths, sequence, block.len());
    if number != number::DONE {
        if M == mistake::SHORT_FILLED && number == number::WRITE_SHORT {
            let mut whole = vec![0; len];
            fill::<M>(messages, lengths, sequence, &mut whole);
            block.copy_from_slice(&whole[..block.len()]);
        }
        return match M {
            mistake::LENGTH_TOLD if number == number::WRITE_SHORT => Written { number, len },
            _ => Written::refused(number),
        };
    }
    let (block, behind) = block.split_at_mut(len);
    fill::<M>(messages, lengths, sequence, block);
    if M == mistake::BEHIND_CLEARED {
        behind.fill(0);
    }
    Written { number, len }
}

/// 71, then 72, then 73.
fn check<const M: u8>(messages: &[u8], lengths: &[u32], sequence: u32, room: usize) -> u8 {
    let control = lengths.len() > 1 && has_control::<M>(messages, lengths);
    let needed = HEADER_LEN + OFFSET_LEN * lengths.len() + messages.len();
    let short = match M {
        mistake::ROOM_FOR_ANY => room < BLOCK_MAX,
        mistake::JUST_FITTING_REFUSED => room <= needed,
        _ => room < needed,
    };
    match M {
        mistake::CONTROL_FIRST if control => return number::WRITE_CONTROL,
        mistake::SHORT_FIRST if short => return number::WRITE_SHORT,
        _ => {}
    }
    if !fit_a_block::<M>(messages, lengths) {
        return number::WRITE_MESSAGES;
    }
    match M {
        mistake::SHORT_BEFORE_CONTROL if short => return number::WRITE_SHORT,
        mistake::CONTROL_WRITTEN if !short => return number::DONE,
        mistake::LONE_CONTROL_REFUSED if messages.first() == Some(&b'C') => {
            return number::WRITE_CONTROL;
        }
        mistake::WRAP_REFUSED if sequence.checked_add(lengths.len() as u32).is_none() => {
            return number::WRITE_MESSAGES;
        }
        _ => {}
    }
    if control {
        return number::WRITE_CONTROL;
    }
    if short {
        return number::WRITE_SHORT;
    }
    number::DONE
}

/// 1 to 45 messages of at least 20 bytes each, whose lengths add up to the bytes lent, in a block of
/// at most 1,000.
fn fit_a_block<const M: u8>(messages: &[u8], lengths: &[u32]) -> bool {
    let counts = match M {
        mistake::EMPTY_WRITTEN => 0..=MESSAGES_MAX,
        mistake::FORTY_FIVE_REFUSED => 1..=MESSAGES_MAX - 1,
        _ => 1..=MESSAGES_MAX,
    };
    if !counts.contains(&lengths.len()) {
        return false;
    }
    let shortest = match M {
        mistake::NINETEEN_TAKEN => MESSAGE_MIN - 1,
        _ => MESSAGE_MIN,
    };
    let asked = match M {
        mistake::LAST_OF_ANY_LENGTH => &lengths[..lengths.len() - 1],
        _ => lengths,
    };
    if asked.iter().any(|&len| (len as usize) < shortest) {
        return false;
    }
    let longest = match M {
        mistake::LONG_BLOCK => BLOCK_MAX + 1,
        mistake::FULL_BLOCK_REFUSED => BLOCK_MAX - 1,
        _ => BLOCK_MAX,
    };
    HEADER_LEN + OFFSET_LEN * lengths.len() + messages.len() <= longest
        && add_up::<M>(messages, lengths)
}

/// Whether the lengths, at most 45 of them, are together the bytes lent.
fn add_up<const M: u8>(messages: &[u8], lengths: &[u32]) -> bool {
    let lent = messages.len() as u64;
    let sum: u64 = lengths.iter().map(|&len| u64::from(len)).sum();
    match M {
        mistake::SUM_OF_16_BITS => sum as u16 == lent as u16,
        mistake::SUM_OF_32_BITS => sum as u32 == lent as u32,
        mistake::LESS_TAKEN => sum <= lent,
        mistake::MORE_TAKEN => sum >= lent,
        _ => sum == lent,
    }
}

/// Whether the category of any message is C. Lengths may lead out of the bytes lent.
fn has_control<const M: u8>(messages: &[u8], lengths: &[u32]) -> bool {
    let asked = match M {
        mistake::FIRST_ASKED_FOR_CONTROL => 0..1,
        mistake::LAST_NOT_ASKED_FOR_CONTROL => 0..lengths.len() - 1,
        _ => 0..lengths.len(),
    };
    let mut start = 0;
    for (i, &len) in lengths.iter().enumerate() {
        let Some(message) = messages.get(start..) else {
            return false;
        };
        let known = matches!(message.get(1), Some(b'I' | b'T' | b'C' | b'O' | b'5'));
        let is_control = message.first() == Some(&b'C') && (known || M != mistake::KNOWN_CONTROL);
        if is_control && asked.contains(&i) {
            return true;
        }
        start += len as usize;
    }
    false
}

/// Fills all of the block: version, count, length, sequence number, offsets, messages, and at last
/// the checksum.
fn fill<const M: u8>(messages: &[u8], lengths: &[u32], sequence: u32, block: &mut [u8]) {
    let table_end = HEADER_LEN + OFFSET_LEN * lengths.len();
    let block_len = block.len() as u16;
    block[0] = VERSION;
    block[1] = lengths.len() as u8;
    block[2..4].copy_from_slice(&block_len.to_be_bytes());
    block[4..8].copy_from_slice(&sequence.to_be_bytes());
    if M != mistake::OLD_CHECKSUM_COUNTED {
        block[8..HEADER_LEN].fill(0);
    }
    let mut offset = table_end;
    let table = block[HEADER_LEN..table_end].chunks_exact_mut(OFFSET_LEN);
    for (place, &len) in table.zip(lengths) {
        place.copy_from_slice(&(offset as u16).to_be_bytes());
        offset += len as usize;
    }
    block[table_end..].copy_from_slice(messages);
    let sum: u32 = block.iter().map(|&byte| u32::from(byte)).sum();
    block[8..HEADER_LEN].copy_from_slice(&(sum as u16).to_be_bytes());
}
