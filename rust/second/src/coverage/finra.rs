//! Counting which cases of T-07 ("Odd lots of a closed venue") a run of lists has reached for D, whose
//! levels rank while its FINRA best has that side.

use std::collections::BTreeMap;
use std::fmt::{self, Display, Formatter};

use super::prices::Prices;

#[derive(Clone, Copy, PartialEq, Eq, PartialOrd, Ord, Debug)]
enum Case {
    /// A Q U gives the FINRA best this side, and the odd entry changes.
    MakerShows,
    /// A Q U takes it away, and the odd entry changes.
    MakerHides,
    /// A maker leaves this side and another still has it.
    OtherMakerStays,
    /// A Q U with an indication, beside hidden levels.
    Indication,
    /// A Q U under L, beside hidden levels.
    MakerClosed,
    /// FINRA Close hides levels, and an odd entry changes.
    CloseHides,
    /// FINRA Open brings levels back, and an odd entry changes.
    OpenShows,
    /// The same in two symbols at once.
    TwoSymbols,
    /// The items of a Q T while D's levels are hidden.
    StoredHidden,
    /// 64 while both sides' levels are hidden.
    FifthHidden,
    /// The items of a Q T change the odd entry.
    Leads,
}

const CASES: [Case; 11] = [
    Case::MakerShows,
    Case::MakerHides,
    Case::OtherMakerStays,
    Case::Indication,
    Case::MakerClosed,
    Case::CloseHides,
    Case::OpenShows,
    Case::TwoSymbols,
    Case::StoredHidden,
    Case::FifthHidden,
    Case::Leads,
];
const SIDES: [&str; 2] = ["bid", "offer"];

/// A maker's quote: its condition, and which sides show a price and which a size.
#[derive(Clone, Copy, Default)]
struct Maker {
    condition: u8,
    sides: [(bool, bool); 2],
}

impl Maker {
    fn of(message: &[u8]) -> Maker {
        let is = |at: usize, len: usize| message[at..at + len].iter().any(|&byte| byte != 0);
        Maker {
            condition: message[31],
            sides: [32, 44].map(|at| (is(at, 8), is(at + 8, 4))),
        }
    }

    fn counts(&self, side: usize) -> bool {
        self.condition == b'R' && self.sides[side] == (true, true)
    }
}

/// What stands of FINRA in one symbol.
#[derive(Default)]
struct Symbol {
    makers: BTreeMap<Vec<u8>, Maker>,
    levels: Prices,
}

impl Symbol {
    /// Whether the FINRA best has a side.
    fn ranks(&self, side: usize) -> bool {
        self.makers.values().any(|maker| maker.counts(side))
    }
}

/// How often each case was reached.
#[derive(Default)]
pub struct Finra {
    symbols: BTreeMap<Vec<u8>, Symbol>,
    counts: BTreeMap<(usize, Case), u64>,
}

impl Finra {
    /// A fresh book, or Start of Day.
    pub fn start(&mut self) {
        self.symbols.clear();
    }

    /// A message with its code and flags.
    pub fn note(&mut self, message: &[u8], code: u8, flags: u8) {
        let reached = match (&message[..2], code) {
            (b"QU", 0) => self.maker(message, flags),
            (b"QT", 0 | 64) => self.odd_lot(message, code, flags),
            (b"CC" | b"CO", 0) => self.control(message[1], flags),
            _ => return,
        };
        for (_, side, case) in reached.into_iter().filter(|reached| reached.0) {
            *self.counts.entry((side, case)).or_default() += 1;
        }
    }

    fn maker(&mut self, message: &[u8], flags: u8) -> Vec<(bool, usize, Case)> {
        let symbol = self.symbols.entry(message[20..31].to_vec()).or_default();
        let name = message[56..60].to_vec();
        let new = Maker::of(message);
        let was = [0, 1].map(|side| symbol.ranks(side));
        let old = match new.sides == [(false, false); 2] {
            true => symbol.makers.remove(&name),
            false => symbol.makers.insert(name, new),
        };
        let mut cases = Vec::new();
        for side in [0, 1] {
            let stand = symbol.levels.stand(side);
            let (now, changed) = (symbol.ranks(side), changed(flags, side));
            let left = old.is_some_and(|old| old.counts(side)) && !new.counts(side);
            let hidden = stand && !now;
            let shows = stand && !was[side] && now && changed;
            let hides = stand && was[side] && !now && changed;
            let open = new.condition == b'R';
            cases.extend([
                (shows, side, Case::MakerShows),
                (hides, side, Case::MakerHides),
                (stand && left && now, side, Case::OtherMakerStays),
                (
                    hidden && open && new.sides[side] == (true, false),
                    side,
                    Case::Indication,
                ),
                (
                    hidden && !open && new.sides[side] == (true, true),
                    side,
                    Case::MakerClosed,
                ),
            ]);
        }
        cases
    }

    fn odd_lot(&mut self, message: &[u8], code: u8, flags: u8) -> Vec<(bool, usize, Case)> {
        let symbol = self.symbols.entry(message[20..31].to_vec()).or_default();
        let ranks = [0, 1].map(|side| symbol.ranks(side));
        let mut items = [false; 2];
        if code == 0 {
            items = symbol.levels.take(message);
        }
        let cases = [0, 1].map(|side| {
            let leads = items[side] && ranks[side] && changed(flags, side);
            [
                (items[side] && !ranks[side], side, Case::StoredHidden),
                (code == 64 && ranks == [false; 2], side, Case::FifthHidden),
                (leads, side, Case::Leads),
            ]
        });
        cases.concat()
    }

    fn control(&mut self, kind: u8, flags: u8) -> Vec<(bool, usize, Case)> {
        let (condition, case) = match kind {
            b'C' => (b'L', Case::CloseHides),
            _ => (b'R', Case::OpenShows),
        };
        let mut moved = [0; 2];
        for symbol in self.symbols.values_mut() {
            let was = [0, 1].map(|side| symbol.ranks(side));
            for maker in symbol.makers.values_mut() {
                maker.condition = condition;
            }
            for side in [0, 1] {
                let moves = symbol.levels.stand(side) && was[side] != symbol.ranks(side);
                moved[side] += u8::from(moves && changed(flags, side));
            }
        }
        let cases = [0, 1].map(|side| {
            [
                (moved[side] > 0, side, case),
                (moved[side] > 1, side, Case::TwoSymbols),
            ]
        });
        cases.concat()
    }

    /// The cases that were not reached.
    pub fn missing(&self) -> Vec<String> {
        let mut missing = Vec::new();
        for case in CASES {
            for (side, name) in SIDES.iter().enumerate() {
                if !self.counts.contains_key(&(side, case)) {
                    missing.push(format!("D's odd {name}: {case:?}"));
                }
            }
        }
        missing
    }
}

/// Whether the flags tell that the odd entry of a side changed.
fn changed(flags: u8, side: usize) -> bool {
    flags & [16, 32][side] != 0
}

/// A row for each side.
impl Display for Finra {
    fn fmt(&self, f: &mut Formatter) -> fmt::Result {
        let mut last = None;
        for ((side, case), count) in &self.counts {
            if last != Some(side) {
                write!(f, "\nD's odd {} ranks:", SIDES[*side])?;
                last = Some(side);
            }
            write!(f, " {case:?} x{count}")?;
        }
        Ok(())
    }
}
