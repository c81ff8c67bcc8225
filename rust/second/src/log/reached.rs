//! Counting what the logs have reached.

use std::collections::BTreeMap;
use std::fmt::{self, Display, Formatter};

use super::mistake::NONE;
use super::{
    be, check, next, number, parts, read_head, Next, Replayed, HEAD_LEN, KINDS, KINDS_COUNT,
    RECORD_LEN, REQUESTS,
};

const STOPS: [&str; 12] = [
    "0 at the log's end",
    "91 with under 17 bytes left",
    "91 for a length beyond the log's end",
    "92 for a length under 17",
    "92 for a wrong check",
    "92 for a kind that is none",
    "92 for arguments that are too short",
    "92 for arguments that are too long",
    "93 with no output",
    "93 behind an answer",
    "90 for a short log",
    "90 for a head that is wrong",
];
const OTHERS: [&str; 3] = [
    "a buffer of over 32 bits",
    "a head of other requests",
    "2 for another n",
];

/// How often each was reached.
#[derive(Default)]
pub struct Reached {
    logs: u64,
    times: BTreeMap<String, u64>,
}

impl Reached {
    fn add(&mut self, name: impl Into<String>) {
        *self.times.entry(name.into()).or_default() += 1;
    }

    /// Notes what restoring from a log gave.
    pub fn note_restored(&mut self, log: &[u8], told: &Replayed) {
        self.logs += 1;
        match (told.number, read_head::<NONE>(log)) {
            (number::HEAD, _) if log.len() < HEAD_LEN => self.add(STOPS[10]),
            (number::HEAD, _) => self.add(STOPS[11]),
            (number::MAKE, _) => self.add(OTHERS[2]),
            (_, Some((_, requests))) if requests != REQUESTS => self.add(OTHERS[1]),
            _ => {}
        }
    }

    /// Notes what a replay from a place gave.
    pub fn note(&mut self, log: &[u8], from: usize, told: &Replayed) {
        let mut at = from;
        while let (true, Next::Call(call, _, next)) = (at < told.place, next::<NONE>(log, at)) {
            let (kind, numbers, _) = parts(&call);
            self.add(format!("kind {kind}"));
            if kind != 8 && numbers.iter().any(|&number| number > u64::from(u32::MAX)) {
                self.add(OTHERS[0]);
            }
            at = next;
        }
        let left = log.get(told.place..).unwrap_or_default();
        let case = match told.number {
            number::END => 0,
            number::CUT if left.len() < RECORD_LEN => 1,
            number::CUT => 2,
            number::DAMAGED => damage(left),
            number::ROOM if told.answers.is_empty() => 8,
            number::ROOM => 9,
            _ => return,
        };
        self.add(STOPS[case]);
    }

    /// What was not reached.
    pub fn missing(&self) -> Vec<String> {
        all()
            .filter(|name| !self.times.contains_key(name))
            .collect()
    }
}

/// Why the first record is damaged.
fn damage(left: &[u8]) -> usize {
    let len = be(&left[..4]) as usize;
    if len < RECORD_LEN {
        return 3;
    }
    let (record, told) = left[..len].split_at(len - 4);
    if be(told) != u64::from(check(record)) {
        return 4;
    }
    let kind = usize::from(record[4]);
    match kind.checked_sub(1).and_then(|kind| KINDS.get(kind)) {
        None => 5,
        Some((widths, _)) if record.len() - 13 < widths.iter().sum() => 6,
        Some(_) => 7,
    }
}

fn all() -> impl Iterator<Item = String> {
    let kinds = (1..=KINDS_COUNT).map(|kind| format!("kind {kind}"));
    kinds.chain(STOPS.into_iter().chain(OTHERS).map(String::from))
}

/// A line for each.
impl Display for Reached {
    fn fmt(&self, f: &mut Formatter) -> fmt::Result {
        writeln!(f, "{} logs", self.logs)?;
        all().try_for_each(|name| {
            let times = self.times.get(&name).copied().unwrap_or(0);
            writeln!(f, "{name}: {times} times")
        })
    }
}
