//! Best entries and the publication, from what the history gives for one symbol.

use std::cmp::Ordering;

use super::account::Account;
use super::fields::Side;
use crate::terms::PUBLICATION_LEN;

/// What is ranked, with the name that is published. A last tie goes to the lower name: the lower
/// maker name, or the lowest letter, which a letter's name begins with.
#[derive(Clone, Debug)]
struct Candidate {
    name: [u8; 4],
    price: u64,
    size: u32,
    time: u64,
}

/// "Highest bid or lowest offer, then larger size, earlier time, lower maker name", in this order,
/// each with the byte that tells that it decided: less is better.
fn steps(side: Side, a: &Candidate, b: &Candidate) -> [(Ordering, u8); 4] {
    let price = match side {
        Side::Bid => b.price.cmp(&a.price),
        Side::Offer => a.price.cmp(&b.price),
    };
    [
        (price, b'P'),
        (b.size.cmp(&a.size), b'S'),
        (a.time.cmp(&b.time), b'T'),
        (a.name.cmp(&b.name), b'L'),
    ]
}

/// "The comparison of two candidates now tells which of the four decided."
fn compare(side: Side, a: &Candidate, b: &Candidate) -> (Ordering, u8) {
    let mut steps = steps(side, a, b).into_iter();
    let decided = steps.find(|(order, _)| order.is_ne());
    decided.unwrap_or((Ordering::Equal, b'L'))
}

/// The candidates of a side, the best first.
fn ranked(side: Side, mut candidates: Vec<Candidate>) -> Vec<Candidate> {
    candidates.sort_by(|a, b| compare(side, a, b).0);
    candidates
}

fn best(side: Side, candidates: Vec<Candidate>) -> Option<Candidate> {
    ranked(side, candidates).into_iter().next()
}

/// "FINRA best: over makers' counting sides." With it goes that maker's condition.
fn finra_best(account: &Account, side: Side) -> Option<(Candidate, u8)> {
    let makers = account.makers();
    let counting = makers
        .iter()
        .filter(|(_, standing)| standing.quote.counts(side));
    let candidates = counting.map(|(name, standing)| Candidate {
        name: [name[0], name[1], name[2], name[3]],
        price: standing.quote.side(side).price,
        size: standing.quote.side(side).size,
        time: standing.time(side),
    });
    let best = best(side, candidates.collect())?;
    let (_, standing) = makers.iter().find(|(name, _)| name[..] == best.name)?;
    Some((best, standing.quote.condition))
}

/// "National best: the same over letters, D standing with its FINRA best and that maker's
/// condition; a last tie goes to the lowest letter."
///
/// "The third byte of a national entry becomes P, S, T or L by the comparison with the second best,
/// or a space if there is no second."
fn national_best(account: &Account, side: Side) -> Option<Candidate> {
    let letters = b'A'..=b'Z';
    let candidates = letters.filter_map(|letter| national_candidate(account, side, letter));
    let ranked = ranked(side, candidates.collect());
    let mut best = ranked.first()?.clone();
    if let Some(second) = ranked.get(1) {
        (_, best.name[2]) = compare(side, &best, second);
    }
    Some(best)
}

fn national_candidate(account: &Account, side: Side, letter: u8) -> Option<Candidate> {
    if letter == b'D' {
        let (finra, condition) = finra_best(account, side)?;
        return Some(Candidate {
            name: [b'D', condition, b' ', b' '],
            ..finra
        });
    }
    let standing = account.quote(letter)?;
    let quote = standing.quote;
    quote.counts(side).then(|| Candidate {
        name: [letter, quote.condition, b' ', b' '],
        price: quote.side(side).price,
        size: quote.side(side).size,
        time: standing.time(side),
    })
}

/// "Does any national candidate stand with a bid at or above a given price (or an offer at or
/// below)? Letters are looked at from A, and the search stops at the first that answers yes." Yes
/// or no, and the letters looked at. Of a halted symbol "T-06 says no with 26".
pub fn protection(account: &Account, side: Side, price: u64) -> (bool, u8) {
    if account.is_halted() {
        return (false, 26);
    }
    let mut looked = 0;
    for letter in b'A'..=b'Z' {
        looked += 1;
        if let Some(candidate) = national_candidate(account, side, letter) {
            let yes = match side {
                Side::Bid => candidate.price >= price,
                Side::Offer => candidate.price <= price,
            };
            if yes {
                return (true, looked);
            }
        }
    }
    (false, looked)
}

/// "A level now ranks only while its letter's latest round quote admits that side by its condition,
/// whatever price and size it shows. A letter other than D with no round quote since Start of Day
/// ranks as before. D ranks only while its FINRA best has that side, whatever quotes it had." The
/// history has nothing from before Start of Day.
fn ranks(account: &Account, letter: u8, side: Side) -> bool {
    if letter == b'D' {
        return finra_best(account, side).is_some();
    }
    match account.quote(letter) {
        Some(standing) => standing.quote.admits(side),
        None => true,
    }
}

/// "Each step takes from the best candidate not yet used, in national order, as many lots as are wanted
/// and shown, until none are wanted." Letter, price and lots of each step, and the lots not found. "A
/// halted symbol fills nothing."
pub fn order_steps(account: &Account, side: Side, lots: u32) -> (Vec<(u8, u64, u32)>, u32) {
    if account.is_halted() {
        return (Vec::new(), lots);
    }
    let letters = b'A'..=b'Z';
    let candidates = letters.filter_map(|letter| national_candidate(account, side, letter));
    let mut unused: Vec<Candidate> = candidates.collect();
    let mut wanted = lots;
    let mut steps = Vec::new();
    while wanted > 0 {
        let Some(next) = best(side, unused.clone()) else {
            break;
        };
        unused.retain(|candidate| candidate.name != next.name);
        let taken = wanted.min(next.size);
        steps.push((next.name[0], next.price, taken));
        wanted -= taken;
    }
    (steps, wanted)
}

/// "Odd best: over all letters' levels priced above the national bid (below the national offer;
/// any level if that side has none)."
fn odd_best(account: &Account, side: Side) -> Option<Candidate> {
    let national = national_best(account, side);
    let is_inside = |price: u64| match (&national, side) {
        (None, _) => true,
        (Some(national), Side::Bid) => price > national.price,
        (Some(national), Side::Offer) => price < national.price,
    };
    let mut candidates = Vec::new();
    for letter in (b'A'..=b'Z').filter(|&letter| ranks(account, letter, side)) {
        for level in account.levels(letter, side) {
            if is_inside(level.price) {
                candidates.push(Candidate {
                    name: [letter, b' ', b' ', b' '],
                    price: level.price,
                    size: level.shares,
                    time: level.time,
                });
            }
        }
    }
    best(side, candidates)
}

/// The 96 bytes: national bid, offer, FINRA bid, offer, odd bid, offer. "While a symbol is halted all
/// six entries are worked out as none."
pub fn publication(account: &Account) -> [u8; PUBLICATION_LEN] {
    let worked_out = || {
        [
            national_best(account, Side::Bid),
            national_best(account, Side::Offer),
            finra_best(account, Side::Bid).map(|(best, _)| best),
            finra_best(account, Side::Offer).map(|(best, _)| best),
            odd_best(account, Side::Bid),
            odd_best(account, Side::Offer),
        ]
    };
    let halted = account.is_halted();
    let entries = if halted {
        Default::default()
    } else {
        worked_out()
    };
    let mut bytes = Vec::new();
    for entry in entries {
        match entry {
            Some(best) => {
                bytes.extend(best.name);
                bytes.extend(best.price.to_be_bytes());
                bytes.extend(best.size.to_be_bytes());
            }
            None => {
                bytes.extend([b' '; 4]);
                bytes.extend([0; 12]);
            }
        }
    }
    let mut publication = [0; PUBLICATION_LEN];
    publication.copy_from_slice(&bytes);
    publication
}
