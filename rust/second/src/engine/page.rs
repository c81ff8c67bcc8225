//! One symbol's page: its quotes, makers and levels, and its six kept entries.

use super::candidate::{national_name, Candidate, Entry, Side};
use super::mistake;
use super::odd_part::Levels;
use super::page_side::{Leaders, PageSide};
use super::quote::{counts, ranks_levels, Quote};
use crate::terms::{ENTRY_LEN, FINRA, MAKERS_MAX, PROCESSOR, PUBLICATION_LEN};

/// No maker's name has a zero byte, so these two are no names.
const FREE_CELL: u32 = 0;
const SPENT_CELL: u32 = 1;

/// National bid, offer, FINRA bid, offer, odd bid, offer.
pub type Entries = [Entry; 6];

pub struct Page {
    pub round_lot: u32,
    /// The letter whose lines may halt the symbol.
    pub primary: u8,
    pub halted: bool,
    /// The time of the last accepted status; no rule reads it.
    pub status_time: u64,
    pub sides: [PageSide; 2],
    /// The name of each cell's maker.
    maker_names: [u32; MAKERS_MAX],
    pub entries: Entries,
}

impl Page {
    /// An added symbol begins with no quotes and six entries of none, and trades.
    pub fn empty(round_lot: u32, primary: u8) -> Page {
        Page {
            round_lot,
            primary,
            halted: false,
            status_time: 0,
            sides: [PageSide::EMPTY; 2],
            maker_names: [FREE_CELL; MAKERS_MAX],
            entries: [Entry::NONE; 6],
        }
    }

    /// Start of Day empties all quotes, makers and levels, makes every entry none and ends a halt.
    pub fn start_day<const M: u8>(&mut self) {
        let old = std::mem::replace(self, Page::empty(self.round_lot, self.primary));
        if M == mistake::START_KEEPS_HALTS {
            self.halted = old.halted;
        }
        if M == mistake::START_KEEPS_LEVELS {
            for letter in b'A'..=b'Z' {
                self.set_levels::<M>(letter, old.levels(letter));
            }
        }
        if M == mistake::START_KEEPS_HIDDEN {
            for (now, old) in self.sides.iter_mut().zip(&old.sides) {
                now.levels_rank = old.levels_rank;
            }
        }
        if M == mistake::START_KEEPS_TIMES {
            for (now, old) in self.sides.iter_mut().zip(&old.sides) {
                for letter in b'A'..=b'Z' {
                    now.set_quote(letter, old.quote(letter), false);
                }
            }
        }
    }

    /// An accepted Q K replaces its letter's quote.
    #[inline]
    pub fn set_quote<const M: u8>(&mut self, letter: u8, quote: &Quote) {
        let name = national_name(letter, quote.condition);
        let standing = [self.sides[0].quote(letter), self.sides[1].quote(letter)];
        let over = over::<M>(quote, name, standing);
        for (side, (candidate, counts)) in self.sides.iter_mut().zip(over) {
            side.set_quote(letter, candidate, counts);
        }
        for side in Side::BOTH {
            self.sides[side as usize].rank_levels::<M>(letter, ranks_levels::<M>(quote, side));
        }
    }

    /// The cell of a standing maker.
    #[inline]
    pub fn maker_cell(&self, name: u32) -> Option<usize> {
        self.maker_names.iter().position(|&cell| cell == name)
    }

    /// A cell for a new maker; none if sixteen stand.
    #[inline]
    pub fn free_cell<const M: u8>(&self) -> Option<usize> {
        let is_free = |&&cell: &&u32| cell == FREE_CELL;
        if M == mistake::FIFTEEN_MAKERS && self.maker_names.iter().filter(is_free).count() == 1 {
            return None;
        }
        self.maker_cell(FREE_CELL)
    }

    /// An accepted Q U replaces its maker's quote. In a free cell nothing stands, so that its times
    /// are the message's.
    #[inline]
    pub fn set_maker<const M: u8>(&mut self, cell: usize, name: u32, quote: &Quote) {
        self.maker_names[cell] = name;
        let makers = self.sides.each_ref().map(|side| &side.makers);
        let over = over::<M>(quote, name, makers.map(|makers| makers.standing(cell)));
        for (side, (candidate, counts)) in self.sides.iter_mut().zip(over) {
            side.makers.set(cell, candidate, counts);
        }
    }

    /// A maker's quote with both sides 0 and 0 frees its cell, which forgets its times.
    #[inline]
    pub fn free_maker<const M: u8>(&mut self, cell: usize) {
        self.maker_names[cell] = if M == mistake::CELL_NOT_REUSED {
            SPENT_CELL
        } else {
            FREE_CELL
        };
        for side in &mut self.sides {
            let left = match M {
                mistake::FREED_KEEPS_TIMES => side.makers.standing(cell),
                _ => Candidate::NONE,
            };
            side.makers.set(cell, left, false);
        }
    }

    /// FINRA Close gives every standing maker quote condition L, FINRA Open gives R; times hold.
    pub fn set_conditions<const M: u8>(&mut self, condition: u8, time: u64) {
        for (cell, &name) in self.maker_names.iter().enumerate() {
            if name == FREE_CELL || name == SPENT_CELL {
                continue;
            }
            for side in Side::BOTH {
                let makers = &mut self.sides[side as usize].makers;
                let mut quote = makers.standing(cell);
                if M == mistake::CLOSE_RENEWS_TIMES {
                    quote.time = time;
                }
                let counts = counts::<M>(condition, side, side.price(quote.rank), quote.size);
                makers.set(cell, quote, counts);
            }
        }
    }

    /// A letter's levels, sides by levels.
    #[inline]
    pub fn levels(&self, letter: u8) -> [Levels; 2] {
        [self.sides[0].levels(letter), self.sides[1].levels(letter)]
    }

    /// An accepted odd part leaves these levels.
    #[inline]
    pub fn set_levels<const M: u8>(&mut self, letter: u8, levels: [Levels; 2]) {
        for (side, levels) in self.sides.iter_mut().zip(levels) {
            side.set_levels::<M>(letter, levels);
        }
    }

    /// Keeps one side's three entries as its leaders give them, or none while the symbol is halted.
    /// "The third byte of a national entry becomes P, S, T or L by the comparison with the second
    /// best, or a space if there is no second." An odd level is published if it is
    /// priced above the national bid (below the national offer), or if that side has none, whose
    /// rank is 0. The odd order begins with the price, so only the best level has to be looked at.
    #[inline]
    pub fn publish<const M: u8>(&mut self, side: Side) {
        let at = side as usize;
        let leaders = &self.sides[at].leaders;
        let Leaders {
            national,
            second,
            odd,
            ..
        } = leaders;
        let mut inside = odd.rank > national.rank;
        if M == mistake::ODD_AT_NATIONAL {
            inside |= odd.rank == national.rank;
        }
        if M == mistake::ODD_NEEDS_NATIONAL {
            inside &= national.stands();
        }
        let reason = match second.stands() {
            true => national.compare::<M>(second).1.byte::<M>(),
            false if M == mistake::ALONE_BY_PRICE && national.stands() => b'P',
            false => b' ',
        };
        let (mut finra, mut odd) = (Entry::of(&leaders.finra, side), Entry::of(odd, side));
        if M == mistake::FINRA_WITH_REASON && leaders.finra.stands() {
            finra = finra.with_reason(reason);
        }
        if M == mistake::ODD_WITH_REASON {
            odd = odd.with_reason(reason);
        }
        let entries = [
            Entry::of(national, side).with_reason(reason),
            finra,
            if inside { odd } else { Entry::NONE },
        ];
        let kept_in_a_halt = match M {
            mistake::HALT_KEEPS_FINRA => 1,
            mistake::HALT_KEEPS_ODD => 2,
            mistake::HALT_KEEPS_OFFERS if side == Side::Offer => 0,
            _ => entries.len(),
        };
        for (i, entry) in entries.into_iter().enumerate() {
            let shown = !self.halted || i == kept_in_a_halt;
            self.entries[2 * i + at] = if shown { entry } else { Entry::NONE };
        }
    }

    /// The first letter from A with a counting bid at or above the price, or offer at or below it:
    /// whether there is one, and how many letters were looked at. A halted symbol has none.
    pub fn search<const M: u8>(&self, side: Side, price: u64) -> (bool, u8) {
        if self.halted && M != mistake::HALTED_ANSWERS {
            return (false, if M == mistake::HALTED_LOOKS_0 { 0 } else { 26 });
        }
        let page_side = &self.sides[side as usize];
        let answers = |letter: u8| {
            if M == mistake::D_NOT_ASKED && letter == FINRA {
                return false;
            }
            let quote = match M {
                mistake::INDICATION_PROTECTS => page_side.quote(letter),
                _ => page_side.counting_quote(letter),
            };
            if M == mistake::ZERO_BY_RANK {
                return quote.stands() && quote.rank >= side.rank(price);
            }
            if M == mistake::ZERO_IS_NO_PRICE && price == 0 {
                return false;
            }
            let shown = side.price(quote.rank);
            let reached = match side {
                Side::Bid => shown >= price,
                Side::Offer => shown <= price,
            };
            quote.stands() && reached && (M != mistake::AT_THE_PRICE_IS_NO || shown != price)
        };
        let found = match M {
            mistake::LEADER_ASKED => {
                let leader = page_side.leaders.national.letter();
                (b'A'..=b'Z').find(|&letter| letter == leader && answers(letter))
            }
            _ => (b'A'..=b'Z').find(|&letter| answers(letter)),
        };
        let Some(letter) = found else {
            return (false, 26);
        };
        let position = letter - b'A' + 1;
        let looked = match M {
            mistake::LOOKED_FROM_0 => position - 1,
            mistake::PROCESSOR_PASSED_OVER if letter > PROCESSOR => position - 1,
            _ => position,
        };
        (true, looked)
    }

    /// The change flags: 1 national bid, 2 national offer, 4 FINRA bid, 8 FINRA offer, 16 odd bid,
    /// 32 odd offer.
    #[inline]
    pub fn changes<const M: u8>(&self, before: &Entries) -> u8 {
        let pairs = self.entries.iter().zip(before).enumerate();
        let flags = pairs.fold(0, |flags, (i, (now, old))| {
            let is_same = match M {
                mistake::REASON_NOT_FLAGGED if i < 2 => {
                    now.with_reason(b' ') == old.with_reason(b' ')
                }
                _ => now == old,
            };
            flags | u8::from(!is_same) << i
        });
        if M == mistake::ODD_FLAGS_LOST {
            flags & 15
        } else {
            flags
        }
    }

    /// The six entries as a publication.
    pub fn publication(&self) -> [u8; PUBLICATION_LEN] {
        let mut publication = [0; PUBLICATION_LEN];
        for (bytes, entry) in publication.chunks_exact_mut(ENTRY_LEN).zip(self.entries) {
            bytes.copy_from_slice(&entry.bytes());
        }
        publication
    }
}

/// The sides of a new quote over those that stand, and whether they count: "a round-lot side keeps
/// the time it had if the new quote has the same price and a size no larger". The condition plays no
/// part, and each side has a time of its own.
#[inline]
fn over<const M: u8>(quote: &Quote, name: u32, standing: [Candidate; 2]) -> [(Candidate, bool); 2] {
    let mut bid_resent = false;
    Side::BOTH.map(|side| {
        let (mut candidate, counts) = quote.side::<M>(side, name);
        let standing = &standing[side as usize];
        let mut resent = candidate.is_resent::<M>(standing);
        if M == mistake::ONE_TIME {
            bid_resent = if side == Side::Bid {
                resent
            } else {
                bid_resent
            };
            resent = bid_resent;
        }
        if resent {
            candidate.time = match M {
                mistake::EARLIEST_TIME => standing.time.min(candidate.time),
                _ => standing.time,
            };
        }
        (candidate, counts)
    })
}
