//! Counting which cases of T-08 ("What put the leader ahead") a run of lists has reached, by what is
//! published after each call.

use std::collections::BTreeMap;
use std::fmt::{self, Display, Formatter};

use crate::compare::lent_part;
use crate::terms::{ENTRY_LEN, FINRA};

#[derive(Clone, Copy, PartialEq, Eq, PartialOrd, Ord, Debug)]
enum Case {
    /// A leader with no second best.
    Alone,
    /// A leader that is ahead by price, size, time or letter.
    Price,
    Size,
    Time,
    Letter,
    /// D leads beside another letter.
    FinraLeads,
    /// The third byte alone changes: a second best comes, comes closer, falls back, leaves.
    Comes,
    Closer,
    FallsBack,
    Leaves,
}

const CASES: [Case; 10] = [
    Case::Alone,
    Case::Price,
    Case::Size,
    Case::Time,
    Case::Letter,
    Case::FinraLeads,
    Case::Comes,
    Case::Closer,
    Case::FallsBack,
    Case::Leaves,
];
const SIDES: [&str; 2] = ["bid", "offer"];

/// The third byte of a national entry.
const REASON: usize = 2;

/// A national entry's third byte as a case; the later of two is the closer race.
fn told(reason: u8) -> Case {
    match reason {
        b'P' => Case::Price,
        b'S' => Case::Size,
        b'T' => Case::Time,
        b'L' => Case::Letter,
        _ => Case::Alone,
    }
}

/// What happened to the second best if the third byte alone changed.
fn moved(old: &[u8], now: &[u8]) -> Option<Case> {
    let is_same = |(at, (a, b)): (usize, (&u8, &u8))| at == REASON || a == b;
    if old == now || !old.iter().zip(now).enumerate().all(is_same) {
        return None;
    }
    Some(match (told(old[REASON]), told(now[REASON])) {
        (Case::Alone, _) => Case::Comes,
        (_, Case::Alone) => Case::Leaves,
        (old, now) if now > old => Case::Closer,
        _ => Case::FallsBack,
    })
}

/// How often each case was reached.
#[derive(Default)]
pub struct Leading {
    /// The last publication of each symbol that the list adds.
    last: Vec<Vec<u8>>,
    counts: BTreeMap<(usize, Case), u64>,
}

impl Leading {
    /// A fresh book.
    pub fn start_list(&mut self) {
        self.last.clear();
    }

    /// What a read after a call gives for each symbol: number and buffer.
    pub fn note(&mut self, publications: &[(u8, Vec<u8>)]) {
        self.last.resize(publications.len(), Vec::new());
        for (last, (number, buffer)) in self.last.iter_mut().zip(publications) {
            let now = match number {
                0 => lent_part(buffer).to_vec(),
                _ => Vec::new(),
            };
            for side in [0, 1] {
                let part = side * ENTRY_LEN..(side + 1) * ENTRY_LEN;
                let Some(entry) = now.get(part.clone()).filter(|entry| entry[0] != b' ') else {
                    continue;
                };
                let reason = told(entry[REASON]);
                let finra = entry[0] == FINRA && reason != Case::Alone;
                let cases = [
                    Some(reason),
                    finra.then_some(Case::FinraLeads),
                    last.get(part).and_then(|old| moved(old, entry)),
                ];
                for case in cases.into_iter().flatten() {
                    *self.counts.entry((side, case)).or_default() += 1;
                }
            }
            *last = now;
        }
    }

    /// The cases that were not reached.
    pub fn missing(&self) -> Vec<String> {
        let mut missing = Vec::new();
        for case in CASES {
            for (side, name) in SIDES.iter().enumerate() {
                if !self.counts.contains_key(&(side, case)) {
                    missing.push(format!("national {name}: {case:?}"));
                }
            }
        }
        missing
    }
}

/// A row for each side.
impl Display for Leading {
    fn fmt(&self, f: &mut Formatter) -> fmt::Result {
        let mut last = None;
        for ((side, case), count) in &self.counts {
            if last != Some(side) {
                write!(f, "\nnational {} leads:", SIDES[*side])?;
                last = Some(side);
            }
            write!(f, " {case:?} x{count}")?;
        }
        Ok(())
    }
}
