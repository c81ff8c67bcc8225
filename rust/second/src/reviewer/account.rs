//! What the history gives for one symbol: quotes, makers and levels, each worked out anew.

use std::borrow::Cow;

use super::fields::{maker_of, status_of, symbol_of, time_of, Kind, OddPart, Quote, Side};
use crate::terms::FINRA;

/// What the history gives for one symbol, letter by letter: no rule asks which of two letters' messages
/// came first. Only the primary letter's statuses are accepted, and only D's lines take FINRA's messages.
pub struct Account<'a> {
    letters: [Cow<'a, Facts>; 26],
}

/// What a letter's messages that bear on a symbol give.
#[derive(Clone, Default)]
pub struct Facts {
    /// The status of the last one that is accepted.
    status: Option<u8>,
    quote: Option<Standing>,
    makers: Vec<(Vec<u8>, Standing)>,
    bids: Vec<Level>,
    offers: Vec<Level>,
}

/// Whether a message of the history bears on a symbol.
pub fn bears(message: &[u8], symbol: &[u8]) -> bool {
    matches!(Kind::of(message), Some(Kind::FinraClose | Kind::FinraOpen))
        || symbol_of(message) == Some(symbol)
}

/// The place of a message's letter among A to Z; an accepted message has one.
pub fn place(message: &[u8]) -> usize {
    usize::from(message[2] - b'A')
}

/// A letter's or a maker's quote as it stands: the last one, with a time for each side.
#[derive(Clone, Copy)]
pub struct Standing {
    pub quote: Quote,
    bid_time: u64,
    offer_time: u64,
}

impl Standing {
    /// The last of these quotes, the oldest first.
    fn last(quotes: &[Quote]) -> Option<Standing> {
        Some(Standing {
            quote: *quotes.last()?,
            bid_time: first_of_latest_run(quotes, Side::Bid)?.time,
            offer_time: first_of_latest_run(quotes, Side::Offer)?.time,
        })
    }

    pub fn time(&self, side: Side) -> u64 {
        match side {
            Side::Bid => self.bid_time,
            Side::Offer => self.offer_time,
        }
    }
}

/// "The first quote of its latest run with one price and sizes that don't rise."
fn first_of_latest_run(quotes: &[Quote], side: Side) -> Option<&Quote> {
    let in_one_run = |earlier: &Quote, later: &Quote| {
        let (earlier, later) = (earlier.side(side), later.side(side));
        earlier.price == later.price && earlier.size >= later.size
    };
    let mut runs = quotes.chunk_by(in_one_run);
    runs.next_back()?.first()
}

/// A level of one letter and side.
#[derive(Clone, Copy, PartialEq, Eq, Debug)]
pub struct Level {
    pub price: u64,
    pub shares: u32,
    pub time: u64,
}

impl<'a> Account<'a> {
    /// Of these messages, which all bear on one symbol.
    pub fn of(messages: impl Iterator<Item = &'a [u8]>) -> Account<'static> {
        let mut letters = [const { Vec::new() }; 26];
        for message in messages {
            letters[place(message)].push(message);
        }
        Account {
            letters: letters.map(|messages| Cow::Owned(Facts::of(&messages))),
        }
    }

    /// Of what was worked out for each letter.
    pub fn of_facts(facts: [&'a Facts; 26]) -> Account<'a> {
        Account {
            letters: facts.map(Cow::Borrowed),
        }
    }

    fn letter(&self, letter: u8) -> &Facts {
        &self.letters[usize::from(letter - b'A')]
    }

    /// "Recomputing from history takes the last accepted status into account." Without one the symbol
    /// trades.
    pub fn is_halted(&self) -> bool {
        let status = self.letters.iter().find_map(|facts| facts.status);
        status == Some(b'H')
    }

    /// "A letter's quote is its last round part naming the symbol."
    pub fn quote(&self, letter: u8) -> Option<&Standing> {
        self.letter(letter).quote.as_ref()
    }

    /// The standing makers with their quotes.
    pub fn makers(&self) -> &[(Vec<u8>, Standing)] {
        &self.letter(FINRA).makers
    }

    pub fn maker(&self, name: &[u8]) -> Option<&Standing> {
        let found = self.makers().iter().find(|(other, _)| other == name);
        found.map(|(_, standing)| standing)
    }

    pub fn levels(&self, letter: u8, side: Side) -> &[Level] {
        self.letter(letter).levels(side)
    }
}

impl Facts {
    /// Of a letter's messages, in their order.
    pub fn of(messages: &[&[u8]]) -> Facts {
        let of_kind = |kind: Kind| {
            let messages = messages.iter().copied();
            messages.filter(move |message| Kind::of(message) == Some(kind))
        };
        let quotes: Vec<Quote> = of_kind(Kind::RoundLot).map(Quote::of).collect();
        let mut facts = Facts {
            status: of_kind(Kind::Status).next_back().map(status_of),
            quote: Standing::last(&quotes),
            ..Facts::default()
        };
        let mut names: Vec<&[u8]> = Vec::new();
        for name in of_kind(Kind::Maker).map(maker_of) {
            if !names.contains(&name) {
                names.push(name);
            }
        }
        let makers = names.into_iter();
        facts.makers = makers
            .filter_map(|name| Some((name.to_vec(), maker(messages, name)?)))
            .collect();
        // "Levels begin with none and take each odd part naming it, in order."
        for message in messages {
            if let Some(part) = OddPart::of(message) {
                let time = time_of(message);
                take(&mut facts.bids, &part, Side::Bid, time);
                take(&mut facts.offers, &part, Side::Offer, time);
            }
        }
        facts
    }

    pub fn levels(&self, side: Side) -> &[Level] {
        match side {
            Side::Bid => &self.bids,
            Side::Offer => &self.offers,
        }
    }
}

/// "A maker's is its last Q U naming it, none if both sides are 0 and 0; the last FINRA Close or Open
/// after it sets condition L or R." An empty quote frees the maker's cell, and "a freed maker cell
/// forgets its times".
fn maker(messages: &[&[u8]], name: &[u8]) -> Option<Standing> {
    let mut quotes: Vec<Quote> = Vec::new();
    let mut set = None;
    for message in messages {
        match Kind::of(message) {
            Some(Kind::Maker) if maker_of(message) == name => {
                let quote = Quote::of(message);
                if quote.is_empty() {
                    quotes.clear();
                } else {
                    quotes.push(quote);
                }
                set = None;
            }
            Some(Kind::FinraClose) => set = Some(b'L'),
            Some(Kind::FinraOpen) => set = Some(b'R'),
            _ => {}
        }
    }
    let mut standing = Standing::last(&quotes)?;
    standing.quote.condition = set.unwrap_or(standing.quote.condition);
    Some(standing)
}

/// The clear mark first, then each item of the side in order.
fn take(levels: &mut Vec<Level>, part: &OddPart, side: Side, time: u64) {
    if part.clears(side) {
        levels.clear();
    }
    for item in part.items.iter().filter(|item| item.side == side) {
        levels.retain(|level| level.price != item.price);
        if item.shares > 0 {
            levels.push(Level {
                price: item.price,
                shares: item.shares,
                time,
            });
        }
    }
}
