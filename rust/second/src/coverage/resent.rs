//! Counting which cases of T-02 ("Resent quotes keep their place") a run of lists has reached: what
//! each side of an accepted quote is to that side of the quote before it, of its letter or maker.

use std::collections::BTreeMap;
use std::fmt::{self, Display, Formatter};

/// A letter's quote or a maker's.
#[derive(Clone, Copy, PartialEq, Eq, PartialOrd, Ord, Debug)]
enum Of {
    Letter,
    Maker,
}

#[derive(Clone, Copy, PartialEq, Eq, PartialOrd, Ord, Debug)]
enum Case {
    /// The same price and size at another time than the one that is kept.
    SameSize,
    /// The same price and a smaller size, likewise.
    SmallerSize,
    /// The time is kept though the message's is earlier.
    TimeGoesBack,
    /// The time is kept under another condition.
    OtherCondition,
    /// The time is kept behind a FINRA Close or Open.
    CloseOrOpen,
    /// The other side takes a new time while this one keeps its own.
    OneSideAlone,
    /// The same price, larger than ever in the run.
    LargerSize,
    /// The same price, larger than the last size but not than the first of the run.
    LargerThanLast,
    /// The same price, a size behind an indication.
    BehindIndication,
    /// Another price.
    OtherPrice,
    /// The same price and size that the maker had before its cell was freed.
    FreedAndBack,
    /// The same price and size that the letter had before Start of Day.
    StartedAndBack,
}

const BOTH: [Of; 2] = [Of::Letter, Of::Maker];
const CASES: [(Case, &[Of]); 12] = [
    (Case::SameSize, &BOTH),
    (Case::SmallerSize, &BOTH),
    (Case::TimeGoesBack, &BOTH),
    (Case::OtherCondition, &BOTH),
    (Case::CloseOrOpen, &[Of::Maker]),
    (Case::OneSideAlone, &BOTH),
    (Case::LargerSize, &BOTH),
    (Case::LargerThanLast, &BOTH),
    (Case::BehindIndication, &BOTH),
    (Case::OtherPrice, &BOTH),
    (Case::FreedAndBack, &[Of::Maker]),
    (Case::StartedAndBack, &BOTH),
];
const SIDES: [&str; 2] = ["bid", "offer"];

/// One side of a quote, the time of its run and the first size of it.
#[derive(Clone, Copy)]
struct Shown {
    price: u64,
    size: u32,
    time: u64,
    first: u32,
}

/// The last quote of a letter or maker.
#[derive(Clone, Copy)]
struct Last {
    condition: u8,
    sides: [Shown; 2],
    /// Whether it is gone, and why.
    gone: Option<Case>,
    /// Whether a FINRA Close or Open came behind it.
    marked: bool,
}

/// A symbol and a letter, or a symbol and a maker.
type Key = (Of, Vec<u8>, Vec<u8>);

/// How often each case was reached.
#[derive(Default)]
pub struct Resent {
    last: BTreeMap<Key, Last>,
    counts: BTreeMap<(Of, usize, Case), u64>,
}

impl Resent {
    /// A fresh book.
    pub fn start_list(&mut self) {
        self.last.clear();
    }

    /// Start of Day.
    pub fn start_day(&mut self) {
        for last in self.last.values_mut() {
            last.gone = Some(Case::StartedAndBack);
        }
    }

    /// A message that was accepted, or a Q K that was partly accepted.
    pub fn note(&mut self, message: &[u8]) {
        let key = match &message[..2] {
            b"QK" => (Of::Letter, message[20..31].to_vec(), vec![message[2]]),
            b"QU" => (
                Of::Maker,
                message[20..31].to_vec(),
                message[56..60].to_vec(),
            ),
            b"CC" | b"CO" => {
                self.last.values_mut().for_each(|last| last.marked = true);
                return;
            }
            _ => return,
        };
        if key.0 == Of::Maker && message[32..56].iter().all(|&byte| byte == 0) {
            if let Some(last) = self.last.get_mut(&key) {
                last.gone = Some(Case::FreedAndBack);
            }
            return;
        }
        let last = self.note_sides(&key, message);
        self.last.insert(key, last);
    }

    fn note_sides(&mut self, key: &Key, message: &[u8]) -> Last {
        let (condition, time) = (message[31], number(&message[4..12]));
        let new = [32, 44].map(|at| Shown {
            price: number(&message[at..at + 8]),
            size: number(&message[at + 8..at + 12]) as u32,
            time,
            first: number(&message[at + 8..at + 12]) as u32,
        });
        let mut now = Last {
            condition,
            sides: new,
            gone: None,
            marked: false,
        };
        let Some(last) = self.last.get(key).copied() else {
            return now;
        };
        let resent = [0, 1].map(|side| {
            let (old, new) = (last.sides[side], new[side]);
            new.price == old.price && new.size <= old.size
        });
        for side in [0, 1] {
            let (old, new) = (last.sides[side], new[side]);
            let mut cases = Vec::new();
            if new.price == 0 {
                continue;
            } else if let Some(gone) = last.gone {
                cases.extend((resent[side] && new.time != old.time).then_some(gone));
            } else if resent[side] {
                now.sides[side].time = old.time;
                now.sides[side].first = old.first;
                if new.time != old.time && new.size > 0 {
                    cases.push(match new.size == old.size {
                        true => Case::SameSize,
                        false => Case::SmallerSize,
                    });
                    cases.extend((new.time < old.time).then_some(Case::TimeGoesBack));
                    cases.extend((condition != last.condition).then_some(Case::OtherCondition));
                    cases.extend(last.marked.then_some(Case::CloseOrOpen));
                    cases.extend((!resent[1 - side]).then_some(Case::OneSideAlone));
                }
            } else if new.price != old.price {
                cases.push(Case::OtherPrice);
            } else if new.time != old.time {
                cases.push(match old.size {
                    0 => Case::BehindIndication,
                    _ if new.size <= old.first => Case::LargerThanLast,
                    _ => Case::LargerSize,
                });
            }
            for case in cases {
                *self.counts.entry((key.0, side, case)).or_default() += 1;
            }
        }
        now
    }

    /// The cases that were not reached.
    pub fn missing(&self) -> Vec<String> {
        let mut missing = Vec::new();
        for (case, of) in CASES {
            for &of in of {
                for (side, name) in SIDES.iter().enumerate() {
                    if !self.counts.contains_key(&(of, side, case)) {
                        missing.push(format!("{of:?} {name}: {case:?}"));
                    }
                }
            }
        }
        missing
    }
}

fn number(bytes: &[u8]) -> u64 {
    bytes.iter().fold(0, |n, &byte| n << 8 | u64::from(byte))
}

/// A row for each of letters' and makers' sides.
impl Display for Resent {
    fn fmt(&self, f: &mut Formatter) -> fmt::Result {
        let mut last = None;
        for ((of, side, case), count) in &self.counts {
            if last != Some((of, side)) {
                write!(f, "\n{of:?} {} times:", SIDES[*side])?;
                last = Some((of, side));
            }
            write!(f, " {case:?} x{count}")?;
        }
        Ok(())
    }
}
