//! An order played on one side of a page (T-13).

use std::cmp::Ordering;

use super::candidate::{Candidate, Side};
use super::mistake;
use super::page_side::PageSide;
use crate::terms::{FINRA, STEP_LEN};

/// A step: letter 1, price 8, lots 4.
pub type Step = [u8; STEP_LEN];

/// The steps of an order, and the lots not found: the candidates in national order, from each as many
/// lots as are wanted and shown, until none are wanted.
pub fn play<const M: u8>(shown: &PageSide, side: Side, lots: u32) -> (Vec<Step>, u32) {
    let mut wanted = lots;
    let mut steps = Vec::new();
    for candidate in ranked::<M>(shown) {
        if wanted == 0 {
            break;
        }
        let taken = match M {
            mistake::SHOWN_TAKEN => candidate.size,
            _ => wanted.min(candidate.size),
        };
        let listed = match M {
            mistake::SHOWN_LISTED => candidate.size,
            _ => taken,
        };
        steps.push(step(candidate.letter(), side.price(candidate.rank), listed));
        wanted = wanted.saturating_sub(taken);
    }
    if M == mistake::EMPTY_LAST_STEP && wanted == 0 && steps.len() < 25 {
        steps.push(step(b' ', 0, 0));
    }
    let unfilled = match M {
        mistake::NOT_FOUND_LOST => 0,
        mistake::NOT_FOUND_COUNTS_STEPS => wanted.min(steps.len() as u32),
        _ => wanted,
    };
    (steps, unfilled)
}

fn step(letter: u8, price: u64, lots: u32) -> Step {
    let mut step = [0; STEP_LEN];
    step[0] = letter;
    step[1..9].copy_from_slice(&price.to_be_bytes());
    step[9..].copy_from_slice(&lots.to_be_bytes());
    step
}

/// The letters' counting sides, D with its FINRA best, best first.
fn ranked<const M: u8>(shown: &PageSide) -> Vec<Candidate> {
    let letters = (b'A'..=b'Z').map(|letter| {
        let mut candidate = match M {
            mistake::ORDER_OF_INDICATIONS => shown.quote(letter),
            mistake::ODD_LOTS_FILL if !shown.counting_quote(letter).stands() => {
                shown.best_level_of(letter)
            }
            _ => shown.counting_quote(letter),
        };
        if M == mistake::D_WITH_ALL_MAKERS && letter == FINRA {
            candidate.size = shown.makers.shown_at(candidate.rank);
        }
        candidate
    });
    let mut candidates: Vec<Candidate> = letters.filter(Candidate::stands).collect();
    if M != mistake::ORDER_BY_LETTER {
        candidates.sort_by(|a, b| match a.beats::<M>(b) {
            true => Ordering::Less,
            false => Ordering::Greater,
        });
    }
    match M {
        mistake::LEADER_FILLS_ALONE => candidates.truncate(1),
        mistake::LEADER_USED_TWICE => candidates.extend(candidates.first().copied()),
        _ => {}
    }
    candidates
}
