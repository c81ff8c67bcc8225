//! Counting which cases of T-07 ("Odd lots of a closed venue") a run of lists has reached: what the
//! round quote of a letter is to its levels, side by side.

use std::collections::BTreeMap;
use std::fmt::{self, Display, Formatter};

use super::prices::Prices;

#[derive(Clone, Copy, PartialEq, Eq, PartialOrd, Ord, Debug)]
enum Case {
    /// A quote hides levels that ranked, and the odd entry changes.
    Hides,
    /// A quote brings hidden levels back, and the odd entry changes.
    BringsBack,
    /// A quote hides levels on this side alone.
    HidesOneSide,
    /// Levels behind a quote that admits the side and shows 0 and 0 on it.
    NothingShown,
    /// Levels behind a quote that admits the side and shows an indication on it.
    Indication,
    /// The items of a Q K whose own condition hides them.
    OwnItems,
    /// The items of a Q M while its letter's levels are hidden.
    StoredHidden,
    /// 64 while both sides' levels are hidden.
    FifthHidden,
    /// The levels of a letter without a round quote lead.
    Unquoted,
    /// The same, its last round quote before Start of Day having hidden them.
    StartedAnew,
}

const CASES: [Case; 10] = [
    Case::Hides,
    Case::BringsBack,
    Case::HidesOneSide,
    Case::NothingShown,
    Case::Indication,
    Case::OwnItems,
    Case::StoredHidden,
    Case::FifthHidden,
    Case::Unquoted,
    Case::StartedAnew,
];
const SIDES: [&str; 2] = ["bid", "offer"];

/// What stands of one letter in one symbol.
#[derive(Clone, Default)]
struct Letter {
    /// The condition of its latest round quote since Start of Day, and of the last before it.
    condition: Option<u8>,
    before_start: Option<u8>,
    levels: Prices,
}

fn ranks(condition: Option<u8>, side: usize) -> bool {
    let admitting = [b"ABHORWF", b"ABHORWE"][side];
    condition.is_none_or(|condition| admitting.contains(&condition))
}

/// How often each case was reached.
#[derive(Default)]
pub struct Closed {
    letters: BTreeMap<(Vec<u8>, u8), Letter>,
    counts: BTreeMap<(usize, Case), u64>,
}

impl Closed {
    /// A fresh book.
    pub fn start_list(&mut self) {
        self.letters.clear();
    }

    /// Start of Day.
    pub fn start_day(&mut self) {
        for letter in self.letters.values_mut() {
            *letter = Letter {
                before_start: letter.condition,
                ..Letter::default()
            };
        }
    }

    /// A message with its code and flags.
    pub fn note(&mut self, message: &[u8], code: u8, flags: u8) {
        let quote = match &message[..2] {
            b"QK" if code == 0 || code >= 60 => true,
            b"QM" if code == 0 || code == 64 => false,
            _ => return,
        };
        let letter = self
            .letters
            .entry((message[20..31].to_vec(), message[2]))
            .or_default();
        let old = letter.clone();
        if quote {
            letter.condition = Some(message[31]);
        }
        let mut items = [false; 2];
        if code == 0 {
            items = letter.levels.take(message);
        }
        for side in [0, 1] {
            let stood = old.levels.stand(side);
            let stands = letter.levels.stand(side);
            let changed = flags & [16, 32][side] != 0;
            let [was, now] = [old.condition, letter.condition].map(|c| ranks(c, side));
            let shown = message.get(32 + 12 * side..44 + 12 * side);
            let shows = |price: bool, size: bool| {
                let is = |bytes: &[u8]| bytes.iter().any(|&byte| byte != 0);
                shown.is_some_and(|shown| is(&shown[..8]) == price && is(&shown[8..]) == size)
            };
            let hidden = |condition| !ranks(condition, 0) && !ranks(condition, 1);
            let unquoted = !quote && old.condition.is_none() && stands && changed;
            let anew = old.before_start.is_some_and(|c| !ranks(Some(c), side));
            let cases = [
                (quote && stood && was && !now && changed, Case::Hides),
                (quote && stood && !was && now && changed, Case::BringsBack),
                (
                    quote && stood && was && !now && ranks(letter.condition, 1 - side),
                    Case::HidesOneSide,
                ),
                (
                    quote && stands && now && shows(false, false),
                    Case::NothingShown,
                ),
                (
                    quote && stands && now && shows(true, false),
                    Case::Indication,
                ),
                (quote && items[side] && !now, Case::OwnItems),
                (!quote && items[side] && !now, Case::StoredHidden),
                (code == 64 && hidden(old.condition), Case::FifthHidden),
                (unquoted, Case::Unquoted),
                (unquoted && anew, Case::StartedAnew),
            ];
            for (_, case) in cases.iter().filter(|case| case.0) {
                *self.counts.entry((side, *case)).or_default() += 1;
            }
        }
    }

    /// The cases that were not reached.
    pub fn missing(&self) -> Vec<String> {
        let mut missing = Vec::new();
        for case in CASES {
            for (side, name) in SIDES.iter().enumerate() {
                if !self.counts.contains_key(&(side, case)) {
                    missing.push(format!("odd {name}: {case:?}"));
                }
            }
        }
        missing
    }
}

/// A row for each side.
impl Display for Closed {
    fn fmt(&self, f: &mut Formatter) -> fmt::Result {
        let mut last = None;
        for ((side, case), count) in &self.counts {
            if last != Some(side) {
                write!(f, "\nodd {} ranks:", SIDES[*side])?;
                last = Some(side);
            }
            write!(f, " {case:?} x{count}")?;
        }
        Ok(())
    }
}
