//! Counting which cases of T-14 ("One allowance for all lines") a run of lists has reached.

use std::collections::{BTreeMap, BTreeSet};
use std::fmt::{self, Display, Formatter};

use crate::build;
use crate::call::Call;
use crate::terms::LINES;

/// What happens with an allowance.
#[derive(Clone, Copy, PartialEq, Eq, PartialOrd, Ord, Debug)]
enum Case {
    /// A tick without an allowance.
    Unset,
    /// A block of its line's share, and one of the spare.
    OfShare,
    OfSpare,
    /// A line takes a block of its share after another was refused with 86 in this tick.
    Guaranteed,
    /// A line that was refused with 86 takes a block in a later tick.
    Later,
    /// While nothing is left for a line: a free block, a duplicate, a block of a closed day.
    Free,
    Duplicate,
    Closed,
    /// A block behind a gap is charged, and one of C C or C O.
    Gap,
    Control,
    /// A setting whose shares are all of its blocks.
    NoSpare,
    /// With blocks charged: a tick, a setting, a refused setting, Start and End of Day, a line that is opened.
    Tick,
    Anew,
    Refused,
    Start,
    End,
    Opened,
    /// With an allowance: a make, and one that is refused.
    Make,
    RefusedMake,
}

const CASES: [Case; 19] = [
    Case::Unset,
    Case::OfShare,
    Case::OfSpare,
    Case::Guaranteed,
    Case::Later,
    Case::Free,
    Case::Duplicate,
    Case::Closed,
    Case::Gap,
    Case::Control,
    Case::NoSpare,
    Case::Tick,
    Case::Anew,
    Case::Refused,
    Case::Start,
    Case::End,
    Case::Opened,
    Case::Make,
    Case::RefusedMake,
];

/// An allowance and the blocks charged to each line in this tick.
struct Set {
    spare: u32,
    shares: Vec<u8>,
    charged: [u32; LINES],
    refused: BTreeSet<u32>,
}

impl Set {
    fn of_share(&self, line: u32) -> bool {
        self.charged[line as usize] < u32::from(self.shares[line as usize])
    }

    fn spare_left(&self) -> bool {
        let of_spare = self.charged.iter().zip(&self.shares);
        let used = of_spare.map(|(charged, &share)| charged.saturating_sub(share.into()));
        used.sum::<u32>() < self.spare
    }

    fn is_charged(&self) -> bool {
        self.charged.iter().any(|&charged| charged > 0)
    }
}

/// How often each case was reached.
#[derive(Default)]
pub struct Ticks {
    set: Option<Set>,
    /// Lines that were refused with 86 in an earlier tick and have taken no block since.
    waiting: BTreeSet<u32>,
    counts: BTreeMap<Case, u64>,
}

impl Ticks {
    /// A fresh book.
    pub fn start_list(&mut self) {
        self.set = None;
        self.waiting.clear();
    }

    /// A call and its number.
    pub fn note(&mut self, call: &Call, number: u8) {
        let is_set = self.set.is_some();
        let is_charged = self.set.as_ref().is_some_and(Set::is_charged);
        match (call, number) {
            (Call::Make { .. }, 0) => {
                self.reach(is_set, Case::Make);
                self.start_list();
            }
            (Call::Make { .. }, _) => self.reach(is_set, Case::RefusedMake),
            (Call::StartDay, 0) => self.reach(is_charged, Case::Start),
            (Call::EndDay, 0) => self.reach(is_charged, Case::End),
            (Call::OpenLine { .. }, 0) => self.reach(is_charged, Case::Opened),
            (Call::SetAllowance { blocks, shares }, 0) => {
                self.reach(is_charged, Case::Anew);
                let spare = blocks - shares.iter().map(|&share| u32::from(share)).sum::<u32>();
                self.reach(spare == 0, Case::NoSpare);
                self.end_tick();
                self.set = Some(Set {
                    spare,
                    shares: shares.clone(),
                    charged: [0; LINES],
                    refused: BTreeSet::new(),
                });
            }
            (Call::SetAllowance { .. }, _) => self.reach(is_charged, Case::Refused),
            (Call::Tick, _) => {
                self.reach(!is_set, Case::Unset);
                self.reach(is_charged, Case::Tick);
                self.end_tick();
            }
            (Call::TakeBlock { line, block, .. }, _) => self.note_block(*line, block, number),
            _ => {}
        }
    }

    fn end_tick(&mut self) {
        if let Some(set) = &mut self.set {
            set.charged = [0; LINES];
            self.waiting.append(&mut set.refused);
        }
    }

    fn note_block(&mut self, line: u32, block: &[u8], number: u8) {
        let Some(set) = self.set.as_mut().filter(|_| (line as usize) < LINES) else {
            return;
        };
        let (of_share, spare_left) = (set.of_share(line), set.spare_left());
        let left = of_share || spare_left;
        let messages = build::split(block).map_or(Vec::new(), |(_, messages)| messages);
        let kind = messages.first().and_then(|first| first.get(..2));
        let kind = kind.unwrap_or_default();
        let free = [b"CI", b"CT", b"C5"].iter().any(|&free| kind == free);
        match number {
            0 | 70 if free => self.reach(!left, Case::Free),
            0 | 70 => {
                set.charged[line as usize] += 1;
                let others = set.refused.iter().any(|&other| other != line);
                let later = self.waiting.remove(&line);
                self.reach(of_share, Case::OfShare);
                self.reach(!of_share, Case::OfSpare);
                self.reach(of_share && others, Case::Guaranteed);
                self.reach(later, Case::Later);
                self.reach(number == 70, Case::Gap);
                self.reach(kind == b"CC" || kind == b"CO", Case::Control);
            }
            20 => self.reach(!left, Case::Closed),
            35 => self.reach(!left, Case::Duplicate),
            86 => {
                set.refused.insert(line);
            }
            _ => {}
        }
    }

    fn reach(&mut self, reached: bool, case: Case) {
        if reached {
            *self.counts.entry(case).or_default() += 1;
        }
    }

    /// The cases that were not reached.
    pub fn missing(&self) -> Vec<String> {
        let missing = CASES.iter().filter(|case| !self.counts.contains_key(case));
        missing.map(|case| format!("allowance: {case:?}")).collect()
    }
}

impl Display for Ticks {
    fn fmt(&self, f: &mut Formatter) -> fmt::Result {
        write!(f, "\nallowance:")?;
        for (case, count) in &self.counts {
            write!(f, " {case:?} x{count}")?;
        }
        Ok(())
    }
}
