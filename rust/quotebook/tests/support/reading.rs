//! What the bytes of a page say, as docs/LAYOUT.md reads any bytes, what a message makes of it, and
//! the six entries that follow by document 01 ("Best entries").

use std::cmp::Reverse;
use std::ops::Range;

use second::snapshot::Latest;

use super::layout::{
    first_key, low, number, quote_key, slot, CELLS, CELL_LEN, LEVELS, LEVEL_LEN, LOT, PRIMARY,
    STATUS,
};

const NONE: [u8; 16] = *b"    \0\0\0\0\0\0\0\0\0\0\0\0";

/// Bid and offer, as positions.
const SIDES: [usize; 2] = [0, 1];

/// A side of a quote, or an odd lot level.
#[derive(Clone, Copy, PartialEq, Eq, PartialOrd, Ord, Debug)]
pub struct Shown {
    price: u64,
    size: u32,
    time: u64,
}

/// No price, no size, no time.
const NOTHING: Shown = Shown {
    price: 0,
    size: 0,
    time: 0,
};

#[derive(Clone, Copy, PartialEq, Eq, PartialOrd, Ord, Debug)]
pub struct Quote {
    condition: u8,
    sides: [Shown; 2],
}

/// A page, read.
#[derive(Clone, PartialEq, Eq, Debug)]
pub struct Reading {
    lot: u8,
    primary: u8,
    /// The status is H; any other byte is trading.
    halted: bool,
    /// For each letter: its quote, and its levels of both sides, best first.
    letters: Vec<(Quote, [Vec<Shown>; 2])>,
    /// The cells, none if free.
    makers: Vec<Option<([u8; 4], Quote)>>,
}

fn shown(bytes: &[u8]) -> Shown {
    Shown {
        price: low(&bytes[..8]),
        size: low(&bytes[8..12]) as u32,
        time: low(&bytes[12..20]),
    }
}

fn quote(bytes: &[u8]) -> Quote {
    Quote {
        condition: bytes[0],
        sides: [shown(&bytes[1..21]), shown(&bytes[21..41])],
    }
}

/// The larger, the better.
fn rank(side: usize, price: u64) -> u64 {
    if side == 0 {
        price
    } else {
        u64::MAX - price
    }
}

/// "The cells before the first one that is empty (price 0 or shares 0) or does not rank strictly
/// behind the cell before it."
fn levels(side: usize, bytes: &[u8]) -> Vec<Shown> {
    let mut levels: Vec<Shown> = Vec::new();
    for level in bytes.chunks_exact(LEVEL_LEN).map(shown) {
        let behind = levels
            .last()
            .is_none_or(|last| rank(side, level.price) < rank(side, last.price));
        if level.price == 0 || level.size == 0 || !behind {
            break;
        }
        levels.push(level);
    }
    levels
}

/// The key of a price with a size: 0 without either. Prices from 2^32 - 1 on have one key; of an offer
/// it is 2^32 less the price.
fn key(side: usize, shown: &Shown) -> u64 {
    let price = shown.price.min((1 << 32) - 1);
    match side {
        _ if price == 0 || shown.size == 0 => 0,
        0 => price,
        _ => (1 << 32) - price,
    }
}

/// The key of a side of a quote: 0 if the condition does not admit it.
fn side_key(side: usize, quote: &Quote) -> u64 {
    if admits(side, quote.condition) {
        key(side, &quote.sides[side])
    } else {
        0
    }
}

/// The key of a side's levels is that of the first.
fn levels_key(side: usize, levels: &[Shown]) -> u64 {
    levels.first().map_or(0, |first| key(side, first))
}

/// What stands in the slot of a letter, whatever its keys.
fn stored(page: &[u8], letter: usize) -> (Quote, [Vec<Shown>; 2]) {
    let slot = &page[slot(letter)];
    let (bids, offers) = slot[LEVELS..].split_at(4 * LEVEL_LEN);
    (quote(slot), [levels(0, bids), levels(1, offers)])
}

/// The keys that the slots of a page ask for, and where they stand.
pub fn own_keys(page: &[u8]) -> Vec<(Range<usize>, [u8; 4])> {
    let of_letter = |letter: usize| keys(letter, &stored(page, letter));
    (0..26).flat_map(of_letter).collect()
}

/// The four keys of a letter with this quote and these levels, and where they stand.
fn keys(letter: usize, (quote, levels): &(Quote, [Vec<Shown>; 2])) -> [(Range<usize>, [u8; 4]); 4] {
    let bytes = |key: u64| (key as u32).to_le_bytes();
    let of_quote = |side| (quote_key(side, letter), bytes(side_key(side, quote)));
    let of_levels = |side: usize| {
        let key = levels_key(side, &levels[side]);
        (first_key(side, letter), bytes(key))
    };
    [of_quote(0), of_quote(1), of_levels(0), of_levels(1)]
}

/// What a letter's slot and its keys say: a side whose key is not its own has no price, size and time,
/// or no levels.
fn letter(page: &[u8], letter: usize) -> (Quote, [Vec<Shown>; 2]) {
    let stored = stored(page, letter);
    let (mut quote, mut levels) = stored.clone();
    let [bid, offer, bids, offers] = keys(letter, &stored).map(|(at, key)| page[at] == key);
    for (side, (of_quote, of_levels)) in [(bid, bids), (offer, offers)].into_iter().enumerate() {
        if !of_quote {
            quote.sides[side] = NOTHING;
        }
        if !of_levels {
            levels[side].clear();
        }
    }
    (quote, levels)
}

impl Reading {
    pub fn of(page: &[u8]) -> Reading {
        let letters = (0..26).map(|at| letter(page, at));
        let cells = page[CELLS].chunks_exact(CELL_LEN);
        let makers = cells.map(|cell| {
            let stands = matches!(cell[4], b'L' | b'R');
            stands.then(|| ([cell[0], cell[1], cell[2], cell[3]], quote(&cell[4..])))
        });
        Reading {
            lot: page[LOT],
            primary: page[PRIMARY],
            halted: page[STATUS] == b'H',
            letters: letters.collect(),
            makers: makers.collect(),
        }
    }

    /// Whether nothing stands: no halt, no maker, no level, and no quote that counts.
    pub fn is_empty(&self) -> bool {
        let nothing = |(_, levels): &(Quote, [Vec<Shown>; 2])| levels.iter().all(Vec::is_empty);
        !self.halted
            && self.makers.iter().all(Option::is_none)
            && self.letters.iter().all(nothing)
            && self.entries().chunks_exact(16).all(|entry| entry == NONE)
    }

    /// The letters' quotes that a snapshot shows: of all but D and S, those whose condition is not 0.
    pub fn latest(&self) -> Vec<Latest> {
        let letters = (b'A'..=b'Z').zip(&self.letters);
        let shown =
            letters.filter(|(letter, (quote, _))| !b"DS".contains(letter) && quote.condition != 0);
        let latest = |(letter, (quote, _)): (u8, &(Quote, [Vec<Shown>; 2]))| {
            let [bid, offer] = quote.sides.map(|side| (side.price, side.size));
            Latest {
                letter,
                condition: quote.condition,
                bid,
                offer,
            }
        };
        shown.map(latest).collect()
    }

    /// Equal but for the positions of cells.
    pub fn agrees(&self, other: &Reading) -> bool {
        let sorted = |reading: &Reading| {
            let mut makers = reading.makers.clone();
            makers.sort();
            makers
        };
        let head = |reading: &Reading| (reading.lot, reading.primary, reading.halted);
        head(self) == head(other) && self.letters == other.letters && sorted(self) == sorted(other)
    }

    /// The keys that an accepted part of a message writes, this reading being that of the page behind it,
    /// and where they stand: those of a Q K's quote, and those of the levels on the sides that its odd part,
    /// if taken, clears or names.
    pub fn written_keys(&self, message: &[u8], code: u8) -> Vec<(Range<usize>, [u8; 4])> {
        let clear = match &message[..2] {
            b"QK" => 56,
            b"QM" | b"QT" => 31,
            _ => return Vec::new(),
        };
        let at = usize::from(message[2] - b'A');
        let [mark, named_bids, named_offers] = message[clear..clear + 3] else {
            unreachable!("three bytes")
        };
        let [bid, offer, bids, offers] = keys(at, &self.letters[at]);
        let mut written = Vec::new();
        if clear == 56 {
            written.extend([bid, offer]);
        }
        if code == 0 && (b"BX".contains(&mark) || named_bids != 0) {
            written.push(bids);
        }
        if code == 0 && (b"SX".contains(&mark) || named_offers != 0) {
            written.push(offers);
        }
        written
    }

    /// What a message that passed checks 40 to 48 makes of the page: its code, 0, 49, 60 to 64, 76 or
    /// 77.
    pub fn take(&mut self, message: &[u8]) -> u8 {
        let at = usize::from(message[2] - b'A');
        match &message[..2] {
            b"QU" => self.take_maker(message),
            b"TS" => self.take_status(message),
            b"QM" | b"QT" => self.take_odd(at, message, 31, 36),
            b"QK" => {
                self.letters[at].0 = over(&self.letters[at].0, round(message));
                self.take_odd(at, message, 56, 60)
            }
            kind => {
                let condition = if kind == b"CC" { b'L' } else { b'R' };
                for (_, quote) in self.makers.iter_mut().flatten() {
                    quote.condition = condition;
                }
                0
            }
        }
    }

    /// The line's letter is the message's, by check 41.
    fn take_status(&mut self, message: &[u8]) -> u8 {
        let (letter, status) = (message[2], message[31]);
        if letter != self.primary {
            return 76;
        }
        if !b"HT".contains(&status) {
            return 77;
        }
        self.halted = status == b'H';
        0
    }

    /// Whether the symbol is halted.
    pub fn is_halted(&self) -> bool {
        self.halted
    }

    /// The quote that stands of a Q K's letter or a Q U's maker.
    fn standing(&self, message: &[u8]) -> Option<Quote> {
        match &message[..2] {
            b"QK" => Some(self.letters[usize::from(message[2] - b'A')].0),
            b"QU" => {
                let name = &message[56..60];
                let mut makers = self.makers.iter().flatten();
                makers.find(|(of, _)| of == name).map(|(_, quote)| *quote)
            }
            _ => None,
        }
    }

    /// For bid and offer: whether an accepted quote keeps a time that is not its own. And the
    /// condition that stood.
    pub fn resent(&self, message: &[u8]) -> Option<([bool; 2], u8)> {
        let (standing, new) = (self.standing(message)?, round(message));
        let over = over(&standing, new);
        let kept = SIDES.map(|side| {
            let (new, over) = (new.sides[side], over.sides[side]);
            new.price > 0 && new.time != over.time
        });
        Some((kept, standing.condition))
    }

    /// Whether a maker stands.
    pub fn has_maker(&self, name: [u8; 4]) -> bool {
        self.makers.iter().flatten().any(|(of, _)| *of == name)
    }

    /// The first cell of the name, else one that is free. The empty quote of a maker without a cell
    /// changes no maker.
    fn take_maker(&mut self, message: &[u8]) -> u8 {
        let name = [message[56], message[57], message[58], message[59]];
        let quote = round(message);
        let empty = is_empty_quote(message);
        let has_name = |cell: &Option<([u8; 4], Quote)>| cell.is_some_and(|(of, _)| of == name);
        let standing = self.makers.iter().position(has_name);
        let of_standing = standing.and_then(|at| self.makers[at]);
        let free = self.makers.iter().position(Option::is_none);
        if empty && standing.is_none() {
            return 0;
        }
        let Some(cell) = standing.or(free) else {
            return 49;
        };
        let quote = of_standing.map_or(quote, |(_, standing)| over(&standing, quote));
        self.makers[cell] = (!empty).then_some((name, quote));
        0
    }

    /// The odd part whose clear mark and items begin at these bytes.
    fn take_odd(&mut self, letter: usize, message: &[u8], clear: usize, items: usize) -> u8 {
        let (mark, bids, offers) = (message[clear], message[clear + 1], message[clear + 2]);
        if !b" BSX".contains(&mark) {
            return 60;
        }
        if bids > 4 || offers > 4 {
            return 61;
        }
        let items = || message[items..].chunks_exact(12);
        for item in items() {
            if number(&item[..8]) == 0 {
                return 62;
            }
            if number(&item[8..]) >= u64::from(self.lot) {
                return 63;
            }
        }
        let mut changed = self.letters[letter].1.clone();
        for (side, marks) in [b"BX", b"SX"].into_iter().enumerate() {
            if marks.contains(&mark) {
                changed[side].clear();
            }
        }
        for (i, item) in items().enumerate() {
            let side = usize::from(i >= usize::from(bids));
            let level = Shown {
                price: number(&item[..8]),
                size: number(&item[8..]) as u32,
                time: number(&message[4..12]),
            };
            let levels = &mut changed[side];
            levels.retain(|standing| standing.price != level.price);
            if level.size > 0 {
                levels.push(level);
            }
            if levels.len() > 4 {
                return 64;
            }
            levels.sort_by_key(|level| Reverse(rank(side, level.price)));
        }
        self.letters[letter].1 = changed;
        0
    }

    /// Which letter from A on first has a national candidate that reaches a price: whether there is
    /// one, and how many letters were looked at. D has its best maker; S has nothing. A halted symbol
    /// has no candidate.
    pub fn protection(&self, side: usize, price: u64) -> (bool, u8) {
        if self.halted {
            return (false, 26);
        }
        let reaches = |quote: &Quote| {
            counting(side, quote, [0; 4]).is_some_and(|(shown, _)| {
                let bids = side == 0;
                shown.price == price || bids == (shown.price > price)
            })
        };
        let makers = self.makers.iter().flatten();
        for (letter, (quote, _)) in (b'A'..).zip(&self.letters) {
            let yes = match letter {
                b'D' => makers.clone().any(|(_, quote)| reaches(quote)),
                b'S' => false,
                _ => reaches(quote),
            };
            if yes {
                return (true, letter - b'A' + 1);
            }
        }
        (false, 26)
    }

    /// The price of one of the quotes.
    pub fn price_of(&self, place: usize, side: usize) -> u64 {
        let quotes = self.letters.iter().map(|(quote, _)| quote);
        let makers = self.makers.iter().flatten().map(|(_, quote)| quote);
        let mut all = quotes.chain(makers).cycle();
        all.nth(place).map_or(0, |quote| quote.sides[side].price)
    }

    /// The best of the makers.
    fn finra(&self, side: usize) -> Option<Candidate> {
        let makers = self.makers.iter().flatten();
        best(
            side,
            makers.filter_map(|(name, quote)| counting(side, quote, *name)),
        )
    }

    /// The national candidates: each letter's quote that counts, D with its best maker; S has none.
    fn national(&self, side: usize) -> Vec<Candidate> {
        let letters = (b'A'..).zip(&self.letters);
        let quotes = letters.filter_map(|(letter, (quote, _))| {
            let counting = counting(side, quote, [letter, quote.condition, b' ', b' ']);
            counting.filter(|_| !matches!(letter, b'D' | b'S'))
        });
        // A maker's side counts under R only.
        let d = self.finra(side).map(|(shown, _)| (shown, *b"DR  "));
        quotes.chain(d).collect()
    }

    /// An order's steps, 13 bytes each, and the lots not found: from the best that is left as many
    /// lots as are wanted and shown. A halted symbol fills nothing.
    pub fn order(&self, side: usize, lots: u32) -> (Vec<u8>, u32) {
        if self.halted {
            return (Vec::new(), lots);
        }
        let mut left = self.national(side);
        let (mut steps, mut wanted) = (Vec::new(), lots);
        while let Some((shown, name)) = best(side, left.iter().copied()).filter(|_| wanted > 0) {
            left.retain(|(_, other)| other[0] != name[0]);
            let taken = shown.size.min(wanted);
            steps.push(name[0]);
            steps.extend(shown.price.to_be_bytes());
            steps.extend(taken.to_be_bytes());
            wanted -= taken;
        }
        (steps, wanted)
    }

    /// The six entries that follow, none while the symbol is halted.
    pub fn entries(&self) -> [u8; 96] {
        let mut entries = [0; 96];
        if self.halted {
            entries.copy_from_slice(&NONE.repeat(6));
            return entries;
        }
        for side in SIDES {
            let finra = self.finra(side);
            let nationals = self.national(side);
            let leader = best(side, nationals.iter().copied());
            // T-08: the third byte, by the best of the other letters.
            let national = leader.map(|(shown, mut name)| {
                let others = nationals.into_iter().filter(|(_, other)| *other != name);
                name[2] = best(side, others).map_or(b' ', |(second, _)| reason(&shown, &second));
                (shown, name)
            });
            let inside = |level: &Shown| {
                national.is_none_or(|(best, _)| rank(side, level.price) > rank(side, best.price))
            };
            // T-07: D's levels rank by its FINRA best, another letter's by its condition; 0 is no quote.
            let ranks = |letter: u8, quote: &Quote| match (letter, quote.condition) {
                (b'D', _) => finra.is_some(),
                (_, 0) => true,
                (_, condition) => admits(side, condition),
            };
            let odd = (b'A'..)
                .zip(&self.letters)
                .filter(|(letter, (quote, _))| ranks(*letter, quote))
                .flat_map(|(letter, (_, levels))| {
                    let levels = levels[side].iter().filter(|level| inside(level));
                    levels.map(move |level| (*level, [letter, b' ', b' ', b' ']))
                });
            let odd = best(side, odd.filter(|(_, name)| name[0] != b'S'));
            for (at, entry) in [(side, national), (2 + side, finra), (4 + side, odd)] {
                entries[16 * at..16 * at + 16].copy_from_slice(&bytes(entry));
            }
        }
        entries
    }
}

/// Whether both sides of a Q K or Q U are 0 and 0.
pub fn is_empty_quote(message: &[u8]) -> bool {
    message[32..56].iter().all(|&byte| byte == 0)
}

/// The quote of Q K or Q U.
fn round(message: &[u8]) -> Quote {
    let time = number(&message[4..12]);
    let side = |at: usize| Shown {
        price: number(&message[at..at + 8]),
        size: number(&message[at + 8..at + 12]) as u32,
        time,
    };
    Quote {
        condition: message[31],
        sides: [side(32), side(44)],
    }
}

/// A new quote over the one that stands, whatever its bytes: "a round-lot side keeps the time it had
/// if the new quote has the same price and a size no larger".
fn over(standing: &Quote, mut new: Quote) -> Quote {
    for (new, standing) in new.sides.iter_mut().zip(&standing.sides) {
        if new.price == standing.price && new.size <= standing.size {
            new.time = standing.time;
        }
    }
    new
}

type Candidate = (Shown, [u8; 4]);

fn admits(side: usize, condition: u8) -> bool {
    match condition {
        b'A' | b'B' | b'H' | b'O' | b'R' | b'W' => true,
        b'E' => side == 1,
        b'F' => side == 0,
        _ => false,
    }
}

fn counting(side: usize, quote: &Quote, name: [u8; 4]) -> Option<Candidate> {
    let shown = quote.sides[side];
    let counts = admits(side, quote.condition) && shown.price > 0 && shown.size > 0;
    counts.then_some((shown, name))
}

/// The better price, then larger size, earlier time, lower name.
fn best(side: usize, candidates: impl Iterator<Item = Candidate>) -> Option<Candidate> {
    candidates.max_by_key(|(shown, name)| {
        let rank = rank(side, shown.price);
        (rank, shown.size, Reverse(shown.time), Reverse(*name))
    })
}

/// The first in which a leader and the second best differ: price, size, time, else the letter.
fn reason(leader: &Shown, second: &Shown) -> u8 {
    if leader.price != second.price {
        b'P'
    } else if leader.size != second.size {
        b'S'
    } else if leader.time != second.time {
        b'T'
    } else {
        b'L'
    }
}

fn bytes(candidate: Option<Candidate>) -> [u8; 16] {
    let Some((shown, name)) = candidate else {
        return NONE;
    };
    let mut bytes = [0; 16];
    bytes[..4].copy_from_slice(&name);
    bytes[4..12].copy_from_slice(&shown.price.to_be_bytes());
    bytes[12..].copy_from_slice(&shown.size.to_be_bytes());
    bytes
}
