//! Damaging messages and blocks.

use super::random::Random;
use crate::build::{seal, seal_checksum};
use crate::terms::{BLOCK_MAX, MESSAGE_MIN};

/// First and last byte of each field that all messages have.
const HEADER: [(usize, usize); 6] = [(0, 0), (1, 1), (2, 2), (3, 3), (4, 11), (12, 19)];
/// The symbol of Q K, Q M, Q T, Q U and T S.
const SYMBOL: (usize, usize) = (20, 30);
/// Condition, prices and sizes of Q K and Q U.
const ROUND: [(usize, usize); 5] = [(31, 31), (32, 39), (40, 43), (44, 51), (52, 55)];
/// Clear, counts and zero of Q K.
const ROUND_LOT: [(usize, usize); 4] = [(56, 56), (57, 57), (58, 58), (59, 59)];
/// Clear, counts and zeros of Q M and Q T.
const ODD_LOT: [(usize, usize); 5] = [(31, 31), (32, 32), (33, 33), (34, 34), (35, 35)];
const MAKER: (usize, usize) = (56, 59);
/// The status of T S.
const STATUS: (usize, usize) = (31, 31);

/// Every field of a message, by its type.
fn fields(message: &[u8]) -> Vec<(usize, usize)> {
    let mut fields = HEADER.to_vec();
    let mut items = message.len();
    match &message[..2] {
        b"C5" => fields.push((20, 114)),
        b"QK" => {
            fields.push(SYMBOL);
            fields.extend(ROUND);
            fields.extend(ROUND_LOT);
            items = 60;
        }
        b"QM" | b"QT" => {
            fields.push(SYMBOL);
            fields.extend(ODD_LOT);
            items = 36;
        }
        b"QU" => {
            fields.push(SYMBOL);
            fields.extend(ROUND);
            fields.push(MAKER);
        }
        b"TS" => fields.extend([SYMBOL, STATUS]),
        _ => {}
    }
    for item in (items..message.len()).step_by(12) {
        fields.extend([(item, item + 7), (item + 8, item + 11)]);
    }
    fields.retain(|&(_, last)| last < message.len());
    fields
}

/// Bytes at the borders of the checks.
const BYTES: &[u8] = b"\x00\x01\x04\x05\x1f !ABCDHKLMNRSTUXZ[a~\x7f\x80\xff";

/// Damages one field of a message, or its length. The message keeps its 20 bytes.
pub fn damage_message(random: &mut Random, message: &mut Vec<u8>) {
    if random.percent(15) {
        let len = match random.below(4) {
            0 => message.len() + 12,
            1 => message.len().saturating_sub(12),
            2 => message.len() + 1 + random.below(4),
            _ => random.below(message.len()),
        };
        message.resize(len.max(MESSAGE_MIN), 0);
        return;
    }
    let (first, last) = random.pick(&fields(message));
    let at = first + random.below(last + 1 - first);
    match random.below(5) {
        0 => message[first..=last].fill(0),
        1 => message[at] ^= 1 << random.below(8),
        2 => message[at] = random.byte(),
        _ => message[at] = random.pick(BYTES),
    }
}

/// Damages what is around the messages of a block of at least 32 bytes. The checksum, and mostly
/// the length field, are then set right again, so that a later check has to find the damage.
pub fn damage_block(random: &mut Random, block: &mut Vec<u8>) {
    let count = usize::from(block[1]);
    let offset = 10 + 2 * random.below(count.max(1));
    match random.below(9) {
        0 => block[0] = random.pick(&[0, 2, 11, 255]),
        1 => block[1] = random.pick(&[0, block[1] - 1, block[1] + 1, 45, 46, 255]),
        2 => {
            block[3] ^= random.pick(&[1, 2, 128]);
            return seal_checksum(block);
        }
        3 => {
            block[8 + random.below(2)] ^= 1 << random.below(8);
            return;
        }
        4 => block[11] = block[11].wrapping_add(random.pick(&[1, 2, 20, 254, 255])),
        5 => block[offset] = block[offset].wrapping_add(random.pick(&[1, 3, 255])),
        6 => block[offset + 1] = random.byte(),
        7 => block.truncate(10 + random.below(block.len() - 9)),
        _ => block.resize(BLOCK_MAX + random.below(3), 0),
    }
    seal(block);
}

/// Bytes of any length; half of them with a right version, length field and checksum.
pub fn arbitrary_block(random: &mut Random) -> Vec<u8> {
    let len = match random.below(4) {
        0 => random.below(64),
        1 => random.pick(&[31, 32, 33, 999, 1000, 1001]),
        _ => random.below(1100),
    };
    let mut block = random.bytes(len);
    if len >= 12 && random.percent(50) {
        block[0] = 1;
        if random.percent(50) {
            let count = random.below(48);
            block[1] = count as u8;
            block[10..12].copy_from_slice(&((10 + 2 * count) as u16).to_be_bytes());
        }
        seal(&mut block);
    }
    block
}
