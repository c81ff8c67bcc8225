//! Counting what the snapshots of a run of lists (T-12) have shown: how many letters, and which kinds
//! of quotes and entries.

use std::collections::BTreeMap;
use std::fmt::{self, Display, Formatter};

use crate::snapshot::{decode, Latest, Snapshot};

#[derive(Clone, Copy, PartialEq, Eq, PartialOrd, Ord, Debug)]
enum Case {
    /// A letter's quote with 0 and 0 on both sides.
    EmptyQuote,
    /// A price with size 0.
    Indication,
    /// A condition that admits neither side.
    AdmitsNeither,
    /// A condition that admits one side.
    AdmitsOne,
    /// D leads the national bid, the offer.
    FinraLeadsBid,
    FinraLeadsOffer,
    /// A FINRA bid without an offer, an offer without a bid, neither.
    FinraBidAlone,
    FinraOfferAlone,
    NoFinra,
    /// Letters' quotes, and nobody leads either side.
    NobodyLeads,
    /// The largest price and size.
    Largest,
}

const CASES: [Case; 11] = [
    Case::EmptyQuote,
    Case::Indication,
    Case::AdmitsNeither,
    Case::AdmitsOne,
    Case::FinraLeadsBid,
    Case::FinraLeadsOffer,
    Case::FinraBidAlone,
    Case::FinraOfferAlone,
    Case::NoFinra,
    Case::NobodyLeads,
    Case::Largest,
];

/// How many letters must have been shown: none, few, as many as fit one block, one more, all.
const LETTERS: [usize; 8] = [0, 1, 2, 12, 13, 14, 15, 24];

/// How often each number of letters and each case was reached.
#[derive(Default)]
pub struct Snapshots {
    letters: BTreeMap<usize, u64>,
    cases: BTreeMap<Case, u64>,
}

impl Snapshots {
    /// The bytes of a snapshot that was written.
    pub fn note(&mut self, bytes: &[u8]) {
        let Ok(snapshot) = decode(bytes) else {
            return;
        };
        *self.letters.entry(snapshot.letters.len()).or_default() += 1;
        for case in CASES {
            if is(case, &snapshot) {
                *self.cases.entry(case).or_default() += 1;
            }
        }
    }

    /// What was not reached.
    pub fn missing(&self) -> Vec<String> {
        let letters = LETTERS.iter().filter(|n| !self.letters.contains_key(n));
        let cases = CASES.iter().filter(|case| !self.cases.contains_key(case));
        letters
            .map(|n| format!("snapshot: {n} letters"))
            .chain(cases.map(|case| format!("snapshot: {case:?}")))
            .collect()
    }
}

fn is(case: Case, snapshot: &Snapshot) -> bool {
    let any = |test: fn(&Latest) -> bool| snapshot.letters.iter().any(test);
    let leads = |side: usize| snapshot.national[side][0];
    let finra = |side: usize| snapshot.finra[side][0] != b' ';
    match case {
        Case::EmptyQuote => any(|latest| latest.bid == (0, 0) && latest.offer == (0, 0)),
        Case::Indication => any(|latest| {
            [latest.bid, latest.offer]
                .iter()
                .any(|side| side.0 > 0 && side.1 == 0)
        }),
        Case::AdmitsNeither => any(|latest| b"CNU".contains(&latest.condition)),
        Case::AdmitsOne => any(|latest| b"EF".contains(&latest.condition)),
        Case::FinraLeadsBid => leads(0) == b'D',
        Case::FinraLeadsOffer => leads(1) == b'D',
        Case::FinraBidAlone => finra(0) && !finra(1),
        Case::FinraOfferAlone => !finra(0) && finra(1),
        Case::NoFinra => !finra(0) && !finra(1),
        Case::NobodyLeads => leads(0) == b' ' && leads(1) == b' ' && !snapshot.letters.is_empty(),
        Case::Largest => any(|latest| latest.bid == (u64::MAX, u32::MAX)),
    }
}

impl Display for Snapshots {
    fn fmt(&self, f: &mut Formatter) -> fmt::Result {
        write!(f, "\nsnapshots by letters:")?;
        for (letters, count) in &self.letters {
            write!(f, " {letters} x{count}")?;
        }
        write!(f, "\nsnapshots:")?;
        for (case, count) in &self.cases {
            write!(f, " {case:?} x{count}")?;
        }
        Ok(())
    }
}
