//! Counting what the calls of a writer have reached.

use std::collections::BTreeMap;
use std::fmt::{self, Display, Formatter};

use super::{Writing, Written};
use crate::terms::{number, BLOCK_MAX, MESSAGES_MAX, MESSAGE_MIN};

// "Alone" says that the number has no other reason.
const DONE: [&str; 8] = [
    "0 into an output that the block fills",
    "0 into a longer output",
    "0 for 45 messages",
    "0 for 1,000 bytes",
    "0 for a known control type",
    "0 for an unknown control type",
    "0 for sequence number 0",
    "0 for sequence numbers that wrap",
];
const MESSAGES: [&str; 12] = [
    "71 for no messages alone",
    "71 for over 45 messages",
    "71 for a message under 20 bytes alone",
    "71 for lengths above the bytes lent alone",
    "71 for lengths below the bytes lent alone",
    "71 for a block over 1,000 alone",
    "71 for a last message of 19 bytes alone",
    "71 for a block of 1,001 alone",
    "71 for lengths that add up in 16 bits alone",
    "71 for lengths that add up in 32 bits alone",
    "71 with a control message among others",
    "71 with an output too short",
];
const CONTROL: [&str; 6] = [
    "72 for one message, of a known type",
    "72 for one message, of an unknown type",
    "72 for the first message alone",
    "72 for the last message alone",
    "72 for every message",
    "72 with an output too short",
];
const SHORT: [&str; 3] = [
    "73 for no output",
    "73 by one byte",
    "73 for a control message",
];

/// How often each was reached.
#[derive(Default)]
pub struct Reached {
    calls: u64,
    times: BTreeMap<&'static str, u64>,
}

impl Reached {
    /// Notes one call and its answer.
    pub fn note(&mut self, writing: &Writing, written: Written) {
        self.calls += 1;
        match written.number {
            number::DONE => self.add(DONE, done(writing)),
            number::WRITE_MESSAGES => self.add(MESSAGES, refused_messages(writing)),
            number::WRITE_CONTROL => self.add(CONTROL, refused_control(writing)),
            number::WRITE_SHORT => self.add(SHORT, refused_short(writing)),
            _ => {}
        }
    }

    fn add<const N: usize>(&mut self, names: [&'static str; N], reached: [bool; N]) {
        for (name, reached) in names.into_iter().zip(reached) {
            if reached {
                *self.times.entry(name).or_default() += 1;
            }
        }
    }

    /// The number of calls noted.
    pub fn calls(&self) -> u64 {
        self.calls
    }

    /// What was not reached.
    pub fn missing(&self) -> Vec<&'static str> {
        all()
            .filter(|name| !self.times.contains_key(name))
            .collect()
    }
}

/// A line for each.
impl Display for Reached {
    fn fmt(&self, f: &mut Formatter) -> fmt::Result {
        writeln!(f, "{} calls of the writer", self.calls)?;
        all().try_for_each(|name| {
            let times = self.times.get(name).copied().unwrap_or(0);
            writeln!(f, "{name}: {times} times")
        })
    }
}

fn all() -> impl Iterator<Item = &'static str> {
    let refused = MESSAGES.into_iter().chain(CONTROL).chain(SHORT);
    DONE.into_iter().chain(refused)
}

/// For each message of category C, whether its type is known; none for the others.
fn controls(writing: &Writing) -> Vec<Option<bool>> {
    let mut start = 0;
    let mut controls = Vec::new();
    for &len in &writing.lengths {
        let message = writing.messages.get(start..).unwrap_or_default();
        let known = matches!(message.get(1), Some(b'I' | b'T' | b'C' | b'O' | b'5'));
        controls.push((message.first() == Some(&b'C')).then_some(known));
        start += len as usize;
    }
    controls
}

fn done(writing: &Writing) -> [bool; 8] {
    let (needed, count) = (writing.needed(), writing.lengths.len());
    let last = u64::from(writing.sequence) + count as u64 - 1;
    let control = controls(writing)[0];
    [
        writing.room == needed,
        writing.room > needed,
        count == MESSAGES_MAX,
        needed == BLOCK_MAX,
        control == Some(true),
        control == Some(false),
        writing.sequence == 0,
        last > u64::from(u32::MAX),
    ]
}

fn refused_messages(writing: &Writing) -> [bool; 12] {
    let (lengths, needed) = (&writing.lengths, writing.needed());
    let lent = writing.messages.len() as u128;
    let sum: u128 = lengths.iter().map(|&len| u128::from(len)).sum();
    let is_short = |&&len: &&u32| (len as usize) < MESSAGE_MIN;
    let short = lengths.iter().filter(is_short).count();
    let reasons = [
        lengths.is_empty(),
        lengths.len() > MESSAGES_MAX,
        short > 0,
        sum > lent,
        sum < lent,
        needed > BLOCK_MAX,
    ];
    let alone = reasons.iter().filter(|&&reason| reason).count() == 1;
    let [none, many, under, above, below, long] = reasons;
    let control = controls(writing).iter().any(Option::is_some);
    [
        none && alone,
        many,
        under && alone,
        above && alone,
        below && alone,
        long && alone,
        alone && short == 1 && lengths.last() == Some(&19),
        alone && needed == BLOCK_MAX + 1,
        above && alone && sum as u16 == lent as u16 && sum as u32 != lent as u32,
        above && alone && sum as u32 == lent as u32,
        control && lengths.len() > 1,
        writing.room < needed,
    ]
}

fn refused_control(writing: &Writing) -> [bool; 6] {
    let controls = controls(writing);
    let found: Vec<bool> = controls.iter().copied().flatten().collect();
    let one = found.len() == 1;
    [
        found == [true],
        found == [false],
        one && controls[0].is_some(),
        one && controls[controls.len() - 1].is_some(),
        found.len() == controls.len(),
        writing.room < writing.needed(),
    ]
}

fn refused_short(writing: &Writing) -> [bool; 3] {
    [
        writing.room == 0,
        writing.room + 1 == writing.needed(),
        writing.messages[0] == b'C',
    ]
}
