//! Counting which cases of T-10 ("Trading halts") a run of lists has reached.

use std::collections::{BTreeMap, BTreeSet};
use std::fmt::{self, Display, Formatter};

/// What happens while a symbol is halted, and what a status does.
#[derive(Clone, Copy, PartialEq, Eq, PartialOrd, Ord, Debug)]
enum Case {
    /// A halt takes entries away.
    Halt,
    /// A halt of a symbol without entries, or of one that is halted.
    IdleHalt,
    /// Trading brings entries back.
    Trading,
    /// Trading of a symbol that trades, or of one without entries.
    IdleTrading,
    /// The primary letter is D.
    ByFinra,
    /// A status that is not the first message of its block.
    AmongOthers,
    /// A quote behind a halt in its own block.
    BehindInBlock,
    /// A status with an earlier time than the one before it of its symbol.
    TimeGoesBack,
    /// Messages that a halted symbol accepts, with flags 0.
    RoundLot,
    OddLot,
    FinraOddLot,
    Maker,
    /// A Q K with 60 to 64 of a halted symbol.
    Partly,
    /// A Q K of a halted symbol with the prices and sizes of the one before it, which keeps its times.
    Resent,
    /// A Q K of a halted symbol whose condition hides its letter's levels.
    Closing,
    /// 49, and 64 of a Q M or Q T, of a halted symbol.
    MakersFull,
    FifthLevel,
    /// FINRA Close and Open while a symbol is halted: flags 0, and flags of another symbol.
    CloseUnseen,
    CloseSeenElsewhere,
    /// A query about a halted symbol, and an order of one.
    Query,
    Order,
    /// Start of Day, End of Day and an add while a symbol is halted.
    Start,
    End,
    Add,
}

const CASES: [Case; 24] = [
    Case::Halt,
    Case::IdleHalt,
    Case::Trading,
    Case::IdleTrading,
    Case::ByFinra,
    Case::AmongOthers,
    Case::BehindInBlock,
    Case::TimeGoesBack,
    Case::RoundLot,
    Case::OddLot,
    Case::FinraOddLot,
    Case::Maker,
    Case::Partly,
    Case::Resent,
    Case::Closing,
    Case::MakersFull,
    Case::FifthLevel,
    Case::CloseUnseen,
    Case::CloseSeenElsewhere,
    Case::Query,
    Case::Order,
    Case::Start,
    Case::End,
    Case::Add,
];

/// How often each case was reached.
#[derive(Default)]
pub struct Halts {
    /// The symbols that are halted.
    halted: BTreeSet<Vec<u8>>,
    /// The time of each symbol's last status.
    times: BTreeMap<Vec<u8>, u64>,
    /// The prices and sizes of each letter's last quote of a symbol.
    quotes: BTreeMap<(Vec<u8>, u8), Vec<u8>>,
    /// The symbols halted by a message of the block that is noted.
    in_block: Vec<Vec<u8>>,
    counts: BTreeMap<Case, u64>,
}

impl Halts {
    pub fn start_list(&mut self) {
        self.halted.clear();
        self.times.clear();
        self.quotes.clear();
    }

    pub fn start_day(&mut self) {
        if !self.halted.is_empty() {
            self.reach(Case::Start);
        }
        self.start_list();
    }

    pub fn end_day(&mut self) {
        self.reach_in_a_halt(Case::End);
    }

    pub fn add_symbol(&mut self) {
        self.reach_in_a_halt(Case::Add);
    }

    pub fn ask(&mut self, symbol: &[u8]) {
        if self.halted.contains(symbol) {
            self.reach(Case::Query);
        }
    }

    pub fn try_order(&mut self, symbol: &[u8]) {
        if self.halted.contains(symbol) {
            self.reach(Case::Order);
        }
    }

    /// Begins the messages of a block.
    pub fn start_block(&mut self) {
        self.in_block.clear();
    }

    /// Notes the message at a place of its block, with its code and flags.
    pub fn note(&mut self, at: usize, name: &str, message: &[u8], code: u8, flags: u8) {
        if matches!(name, "C C" | "C O") && code == 0 && !self.halted.is_empty() {
            self.reach(match flags {
                0 => Case::CloseUnseen,
                _ => Case::CloseSeenElsewhere,
            });
        }
        let Some(symbol) = message.get(20..31) else {
            return;
        };
        if name == "T S" && code == 0 {
            self.note_status(at, symbol, message, flags);
            return;
        }
        let is_resent = name == "Q K" && matches!(code, 0 | 60..=64) && {
            let shown = message[32..56].to_vec();
            let last = self.quotes.insert((symbol.to_vec(), message[2]), shown);
            last.is_some_and(|last| last == message[32..56])
        };
        if !self.halted.contains(symbol) {
            return;
        }
        if is_resent {
            self.reach(Case::Resent);
        }
        if name == "Q K" && code == 0 && b"CNU".contains(&message[31]) {
            self.reach(Case::Closing);
        }
        let reached = match (name, code) {
            ("Q K", 0) => Case::RoundLot,
            ("Q M", 0) => Case::OddLot,
            ("Q T", 0) => Case::FinraOddLot,
            ("Q U", 0) => Case::Maker,
            ("Q K", 60..=64) => Case::Partly,
            ("Q U", 49) => Case::MakersFull,
            ("Q M" | "Q T", 64) => Case::FifthLevel,
            _ => return,
        };
        self.reach(reached);
        if code == 0 && self.in_block.iter().any(|halted| halted == symbol) {
            self.reach(Case::BehindInBlock);
        }
    }

    fn note_status(&mut self, at: usize, symbol: &[u8], message: &[u8], flags: u8) {
        let halts = message[31] == b'H';
        self.reach(match (halts, flags) {
            (true, 0) => Case::IdleHalt,
            (true, _) => Case::Halt,
            (false, 0) => Case::IdleTrading,
            (false, _) => Case::Trading,
        });
        if message[2] == b'D' {
            self.reach(Case::ByFinra);
        }
        if at > 0 {
            self.reach(Case::AmongOthers);
        }
        let time = message[4..12]
            .iter()
            .fold(0, |time, &byte| time << 8 | u64::from(byte));
        let last = self.times.insert(symbol.to_vec(), time);
        if last.is_some_and(|last| time < last) {
            self.reach(Case::TimeGoesBack);
        }
        self.in_block.retain(|halted| halted != symbol);
        if halts {
            self.halted.insert(symbol.to_vec());
            self.in_block.push(symbol.to_vec());
        } else {
            self.halted.remove(symbol);
        }
    }

    fn reach_in_a_halt(&mut self, case: Case) {
        if !self.halted.is_empty() {
            self.reach(case);
        }
    }

    fn reach(&mut self, case: Case) {
        *self.counts.entry(case).or_default() += 1;
    }

    pub fn missing(&self) -> Vec<String> {
        let reached = |case: &Case| self.counts.contains_key(case);
        CASES
            .into_iter()
            .filter(|case| !reached(case))
            .map(|case| format!("halts: {case:?}"))
            .collect()
    }
}

impl Display for Halts {
    fn fmt(&self, f: &mut Formatter) -> fmt::Result {
        write!(f, "\nhalts:")?;
        self.counts
            .iter()
            .try_for_each(|(case, count)| write!(f, " {case:?} x{count}"))
    }
}
