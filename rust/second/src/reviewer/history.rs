//! The history: whole, or without what no answer can depend on any more.

use super::account::{bears, place, Account, Facts};
use super::fields::{maker_of, symbol_of, Kind, Quote, Side};
use crate::terms::FINRA;

/// The messages that the reviewer works everything out from.
pub trait History: Default {
    /// Empties it.
    fn clear(&mut self);

    /// Appends an accepted message, or the round part of a Q K.
    fn push(&mut self, part: &[u8]);

    /// What bears on a symbol.
    fn account(&self, symbol: &[u8]) -> Account<'_>;
}

/// All messages, in their order.
impl History for Vec<Vec<u8>> {
    fn clear(&mut self) {
        self.clear();
    }

    fn push(&mut self, part: &[u8]) {
        self.push(part.to_vec());
    }

    fn account(&self, symbol: &[u8]) -> Account<'_> {
        let messages = self.iter().map(Vec::as_slice);
        Account::of(messages.filter(|message| bears(message, symbol)))
    }
}

/// Each symbol's messages by their letter. Whenever `MORE` have come from a letter, only those are kept
/// on which an answer can depend:
///
/// - of the quotes of a letter or maker the last one, and of each side the first one of its latest run
///   and the quote before it, which ends the run before. Those left out lie in runs that are over, or
///   inside of a run that its first and its last quote show as well.
/// - of a maker nothing before its last empty quote, nor that one.
/// - the last FINRA Close or Open: of those behind a maker's last quote the last one counts.
/// - the last status.
/// - for each level that stands an odd lot message with that level alone, under its time.
#[derive(Default)]
pub struct Shortened<const MORE: usize> {
    symbols: Vec<Kept>,
}

/// What is kept for a symbol.
struct Kept {
    symbol: Vec<u8>,
    letters: [Letter; 26],
}

/// A letter's messages, how many were kept of them when they were last shortened, and what they give,
/// worked out anew from all of them whenever one is added.
#[derive(Default)]
struct Letter {
    messages: Vec<Vec<u8>>,
    kept: usize,
    facts: Facts,
}

impl<const MORE: usize> History for Shortened<MORE> {
    fn clear(&mut self) {
        self.symbols.clear();
    }

    /// A FINRA Close or Open goes to each symbol that has messages; to one without it means nothing.
    fn push(&mut self, part: &[u8]) {
        if let Some(symbol) = symbol_of(part) {
            if !self.symbols.iter().any(|kept| kept.symbol == symbol) {
                self.symbols.push(Kept {
                    symbol: symbol.to_vec(),
                    letters: Default::default(),
                });
            }
        }
        for kept in &mut self.symbols {
            if bears(part, &kept.symbol) {
                let letter = &mut kept.letters[place(part)];
                letter.messages.push(part.to_vec());
                if letter.messages.len() >= letter.kept + MORE {
                    letter.messages = shortened(&letter.messages, &kept.symbol);
                    letter.kept = letter.messages.len();
                }
                letter.facts = facts(&letter.messages);
            }
        }
    }

    fn account(&self, symbol: &[u8]) -> Account<'_> {
        let kept = self.symbols.iter().find(|kept| kept.symbol == symbol);
        match kept {
            Some(kept) => Account::of_facts(kept.letters.each_ref().map(|letter| &letter.facts)),
            None => Account::of(std::iter::empty()),
        }
    }
}

fn facts(messages: &[Vec<u8>]) -> Facts {
    let messages: Vec<&[u8]> = messages.iter().map(Vec::as_slice).collect();
    Facts::of(&messages)
}

/// The messages of a letter that an answer about a symbol can depend on.
fn shortened(messages: &[Vec<u8>], symbol: &[u8]) -> Vec<Vec<u8>> {
    let of_kind = |kind: Kind| {
        let places = 0..messages.len();
        places.filter(move |&at| Kind::of(&messages[at]) == Some(kind))
    };
    let mut kept: Vec<usize> = bounds_of_runs(messages, of_kind(Kind::RoundLot));
    kept.extend(of_kind(Kind::Status).next_back());
    let controls = of_kind(Kind::FinraClose).chain(of_kind(Kind::FinraOpen));
    kept.extend(controls.max());
    let mut makers: Vec<&[u8]> = Vec::new();
    for at in of_kind(Kind::Maker) {
        let maker = maker_of(&messages[at]);
        if !makers.contains(&maker) {
            makers.push(maker);
        }
    }
    for maker in makers {
        let own = |&at: &usize| maker_of(&messages[at]) == maker;
        let is_empty = |&at: &usize| Quote::of(&messages[at]).is_empty();
        let own: Vec<usize> = of_kind(Kind::Maker).filter(own).collect();
        let standing = match own.iter().rposition(is_empty) {
            Some(empty) => &own[empty + 1..],
            None => &own[..],
        };
        kept.extend(bounds_of_runs(messages, standing.iter().copied()));
    }
    kept.sort_unstable();
    kept.dedup();
    let kept = kept.into_iter().map(|at| without_odd_part(&messages[at]));
    kept.chain(levels(messages, symbol)).collect()
}

/// The last of these quotes, and for each side the first of its latest run with the one before.
fn bounds_of_runs(
    messages: &[Vec<u8>],
    quotes: impl DoubleEndedIterator<Item = usize>,
) -> Vec<usize> {
    let quotes: Vec<usize> = quotes.collect();
    let mut kept: Vec<usize> = quotes.last().copied().into_iter().collect();
    for side in [Side::Bid, Side::Offer] {
        let shown = |at: usize| Quote::of(&messages[at]).side(side);
        let ends_run = |pair: &[usize]| {
            let (earlier, later) = (shown(pair[0]), shown(pair[1]));
            earlier.price != later.price || earlier.size < later.size
        };
        match quotes.windows(2).rposition(ends_run) {
            Some(last_end) => kept.extend(&quotes[last_end..last_end + 2]),
            None => kept.extend(quotes.first()),
        }
    }
    kept
}

/// Of a Q K the round part, any other message as it is.
fn without_odd_part(message: &[u8]) -> Vec<u8> {
    match Kind::of(message) {
        Some(Kind::RoundLot) => message[..56].to_vec(),
        _ => message.to_vec(),
    }
}

/// An odd lot message for each level that stands.
fn levels(messages: &[Vec<u8>], symbol: &[u8]) -> Vec<Vec<u8>> {
    let Some(letter) = messages.first().map(|message| message[2]) else {
        return Vec::new();
    };
    let facts = facts(messages);
    let message_type = if letter == FINRA { b'T' } else { b'M' };
    let mut written = Vec::new();
    for (side, counts) in [(Side::Bid, [1, 0]), (Side::Offer, [0, 1])] {
        for level in facts.levels(side) {
            let mut message = vec![b'Q', message_type, letter, 0];
            message.extend(level.time.to_be_bytes());
            message.extend([0; 8]);
            message.extend(symbol);
            message.push(b' ');
            message.extend(counts);
            message.extend([0; 2]);
            message.extend(level.price.to_be_bytes());
            message.extend(level.shares.to_be_bytes());
            written.push(message);
        }
    }
    written
}
