//! Calls of a writer: mostly messages that fit a block, else lengths, bytes and outputs that do not
//! fit each other.

use super::random::Random;
use crate::terms::{BLOCK_MAX, MESSAGES_MAX, MESSAGE_MIN};
use crate::writer::Writing;

/// Lengths at the borders of the checks and of the integers.
const LENGTHS: [u32; 12] = [
    0,
    1,
    19,
    20,
    21,
    988,
    989,
    1 << 16,
    (1 << 16) + 20,
    1 << 31,
    u32::MAX - 19,
    u32::MAX,
];

/// The next call that the random numbers give.
pub fn writing(random: &mut Random) -> Writing {
    let lengths = draw_lengths(random);
    let mut writing = Writing {
        messages: draw_messages(random, &lengths),
        lengths,
        sequence: draw_sequence(random),
        room: 0,
    };
    if random.percent(40) {
        damage(random, &mut writing);
    }
    writing.room = draw_room(random, writing.needed());
    writing
}

/// Lengths of 1 to 45 messages, in a block of any length that fits, of 1,000 bytes or of some more;
/// or some messages of 20 bytes, about as many as fit.
fn draw_lengths(random: &mut Random) -> Vec<u32> {
    if random.percent(10) {
        let count = MESSAGES_MAX - 1 + random.below(3);
        return vec![MESSAGE_MIN as u32; count];
    }
    let count = match random.weighted(&[20, 40, 40]) {
        0 => 1,
        1 => 2 + random.below(4),
        _ => 1 + random.below(MESSAGES_MAX),
    };
    let spare = BLOCK_MAX - 10 - (2 + MESSAGE_MIN) * count;
    let mut left = match random.weighted(&[60, 20, 10, 10]) {
        0 => random.below(spare + 1),
        1 => spare,
        2 => spare + 1,
        _ => spare + random.below(200),
    };
    let mut lengths = vec![MESSAGE_MIN; count];
    while left > 0 {
        let more = 1 + random.below(left.min(200));
        lengths[random.below(count)] += more;
        left -= more;
    }
    lengths.into_iter().map(|len| len as u32).collect()
}

/// Any bytes. The messages are quotes, but for some control messages; or any bytes begin them too.
fn draw_messages(random: &mut Random, lengths: &[u32]) -> Vec<u8> {
    let len = lengths.iter().map(|&len| len as usize).sum();
    let mut messages = random.bytes(len);
    let any = random.percent(10);
    let (every, at) = (random.percent(3), random.below(lengths.len()));
    let one = random.percent(20);
    let mut start = 0;
    for (i, &len) in lengths.iter().enumerate() {
        if !any {
            let control = every || one && i == at;
            messages[start] = if control { b'C' } else { b'Q' };
            messages[start + 1] = random.pick(b"ITCO5KMUQ?\x00");
        }
        start += len as usize;
    }
    messages
}

/// Alters the bytes lent, or one or two lengths; some of the altered lengths still add up, or would
/// in fewer bits.
fn damage(random: &mut Random, writing: &mut Writing) {
    let Writing {
        messages, lengths, ..
    } = writing;
    let count = lengths.len();
    let (a, b) = (random.below(count), random.below(count));
    match random.below(11) {
        0 => messages.truncate(random.below(messages.len())),
        1 => messages.push(b'C'),
        2 => {
            let len = random.below(1100);
            *messages = random.bytes(len);
        }
        3 => {
            let count = random.pick(&[0, 1, 2, 3, 46, 255, 256, 257, 2000]);
            *lengths = (0..count).map(|_| random.pick(&LENGTHS)).collect();
        }
        4 => {
            lengths.clear();
            messages.truncate(random.pick(&[0, 1, 20]));
        }
        5 => lengths[a] = random.pick(&LENGTHS),
        6 => lengths[a] = random.number() as u32,
        // The sum stays, but a message may be too short.
        7 => {
            let less = random.pick(&[1, 2, 20]).min(lengths[a]);
            lengths[a] -= less;
            lengths[b] += less;
        }
        // The last message is of 19 bytes, the bytes lent are as many.
        8 => {
            let cut = lengths[count - 1] - 19;
            lengths[count - 1] = 19;
            messages.truncate(messages.len() - cut as usize);
        }
        // The sum is right modulo 65,536.
        9 => lengths[a] += 1 << 16,
        // The sum is right modulo 4,294,967,296.
        _ => {
            let more = random.pick(&[1 << 31, 1 << 16, u32::MAX]);
            lengths[a] = lengths[a].wrapping_add(more);
            lengths[b] = lengths[b].wrapping_sub(more);
        }
    }
}

fn draw_sequence(random: &mut Random) -> u32 {
    let any = random.number() as u32;
    random.pick(&[0, 1, any, u32::MAX - 44, u32::MAX - 1, u32::MAX])
}

/// Mostly just enough, one byte less, or more.
fn draw_room(random: &mut Random, needed: usize) -> usize {
    match random.weighted(&[40, 15, 15, 10, 10, 10]) {
        0 => needed,
        1 => needed - 1,
        2 => needed + 1 + random.below(40),
        3 => BLOCK_MAX,
        4 => random.below(1100),
        _ => 0,
    }
}
