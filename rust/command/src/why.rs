//! Why a symbol's entries are what they are: the candidates in their order, and what did not count.

use std::cmp::Ordering;

use crate::page::{Page, Quote, Shown, SIDE_NAMES};
use crate::sources::{Mark, Source};

/// What is ranked.
#[derive(Clone, PartialEq, Eq, Debug)]
pub struct Candidate {
    pub side: usize,
    /// A letter, or a maker.
    pub name: Vec<u8>,
    pub condition: Option<u8>,
    pub shown: Shown,
    /// The message that it came by.
    pub mark: Option<Mark>,
}

/// A quote or level that is not ranked, and why.
#[derive(Clone, PartialEq, Eq, Debug)]
pub struct Passed {
    pub candidate: Candidate,
    pub why: String,
}

/// One ranking of one side.
#[derive(Clone, PartialEq, Eq, Debug, Default)]
pub struct Ranking {
    /// The best first.
    pub ranked: Vec<Candidate>,
    pub passed: Vec<Passed>,
}

/// The rankings of a symbol, each for bids and offers.
pub struct Why {
    pub national: [Ranking; 2],
    pub finra: [Ranking; 2],
    pub odd: [Ranking; 2],
}

/// Highest bid or lowest offer, then larger size, earlier time, lower name; which of them decided.
pub fn compare(a: &Candidate, b: &Candidate) -> (Ordering, &'static str) {
    let price = match a.side {
        0 => b.shown.price.cmp(&a.shown.price),
        _ => a.shown.price.cmp(&b.shown.price),
    };
    let steps = [
        (price, "price"),
        (b.shown.size.cmp(&a.shown.size), "size"),
        (a.shown.time.cmp(&b.shown.time), "time"),
        (a.name.cmp(&b.name), "letter"),
    ];
    let decided = steps.into_iter().find(|(order, _)| order.is_ne());
    decided.unwrap_or((Ordering::Equal, "letter"))
}

impl Ranking {
    fn sort(&mut self) {
        self.ranked.sort_by(|a, b| compare(a, b).0);
    }

    fn put(&mut self, candidate: Candidate, why_not: Option<String>) {
        match why_not {
            None => self.ranked.push(candidate),
            Some(why) => self.passed.push(Passed { candidate, why }),
        }
    }
}

/// Why a side of a quote does not count.
fn not_counting(quote: &Quote, side: usize) -> Option<String> {
    let shown = &quote.sides[side];
    let name = SIDE_NAMES[side];
    match (shown.price, shown.size) {
        (0, 0) => Some(format!("no {name}")),
        (_, 0) => Some("an indication: a price without a size".to_string()),
        _ => not_admitted(quote, side),
    }
}

fn not_admitted(quote: &Quote, side: usize) -> Option<String> {
    let condition = quote.condition.escape_ascii();
    let other = quote.admits(1 - side);
    match (quote.admits(side), other) {
        (true, _) => None,
        (false, true) => Some(format!(
            "condition {condition} does not admit the {}",
            SIDE_NAMES[side]
        )),
        (false, false) => Some(format!("condition {condition} admits neither side")),
    }
}

/// The rankings that a page gives.
pub fn why(page: &Page, source: &Source) -> Why {
    let mut why = Why {
        national: Default::default(),
        finra: Default::default(),
        odd: Default::default(),
    };
    for side in [0, 1] {
        rank(page, source, side, &mut why);
    }
    why
}

fn rank(page: &Page, source: &Source, side: usize, why: &mut Why) {
    let finra = &mut why.finra[side];
    for maker in &page.makers {
        let found = source.makers.iter().find(|(name, _)| *name == maker.name);
        let candidate = Candidate {
            side,
            name: maker.name.to_vec(),
            condition: Some(maker.quote.condition),
            shown: maker.quote.sides[side],
            mark: found.map(|&(_, mark)| mark),
        };
        finra.put(candidate, not_counting(&maker.quote, side));
    }
    finra.sort();
    let national = &mut why.national[side];
    for (place, slot) in page.slots.iter().enumerate() {
        let letter = b'A' + place as u8;
        if letter == b'D' {
            let best = finra.ranked.first().cloned();
            national.ranked.extend(best.map(|best| Candidate {
                name: b"D".to_vec(),
                ..best
            }));
        } else if letter != b'S' && slot.quote.condition != 0 {
            let candidate = Candidate {
                side,
                name: vec![letter],
                condition: Some(slot.quote.condition),
                shown: slot.quote.sides[side],
                mark: source.letters[place],
            };
            national.put(candidate, not_counting(&slot.quote, side));
        }
    }
    national.sort();
    let best = national.ranked.first().map(|best| best.shown.price);
    let has_finra = !finra.ranked.is_empty();
    for (place, slot) in page.slots.iter().enumerate() {
        let letter = b'A' + place as u8;
        let not_ranking = match (letter, slot.quote.condition) {
            (b'D', _) if has_finra => None,
            (b'D', _) => Some(format!("FINRA has no {}", SIDE_NAMES[side])),
            (_, 0) => None,
            _ => not_admitted(&slot.quote, side).map(|why| format!("{why} (the letter's quote)")),
        };
        for level in &slot.levels[side] {
            let marks = &source.levels[place][side];
            let mark = marks.iter().find(|&&(price, _)| price == level.price);
            let candidate = Candidate {
                side,
                name: vec![letter],
                condition: None,
                shown: *level,
                mark: mark.map(|&(_, mark)| mark),
            };
            let not_better = match (best, side) {
                (Some(best), 0) if level.price <= best => Some("not above the national bid"),
                (Some(best), 1) if level.price >= best => Some("not below the national offer"),
                _ => None,
            };
            let why_not = not_ranking.clone().or(not_better.map(str::to_string));
            why.odd[side].put(candidate, why_not);
        }
    }
    why.odd[side].sort();
}
