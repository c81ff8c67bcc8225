//! One side of a symbol's page and its three rankings.

use super::candidate::{national_name, Candidate};
use super::mistake;
use super::odd_part::Levels;
use super::ranking::Ranking;
use crate::terms::{FINRA, LETTERS, MAKERS_MAX};

/// The place of a letter in the tables of a side.
#[inline]
fn place(letter: u8) -> usize {
    usize::from(letter - b'A')
}

/// The best of each ranking, and the second best nationally; odd before the national price is looked
/// at.
#[derive(Clone, Copy)]
pub struct Leaders {
    pub national: Candidate,
    pub second: Candidate,
    pub finra: Candidate,
    pub odd: Candidate,
}

/// What stands on one side of a symbol.
pub struct PageSide {
    /// The letters' quotes; in D's place its FINRA best.
    quotes: Ranking<LETTERS>,
    /// The makers' quotes by their cells.
    pub makers: Ranking<MAKERS_MAX>,
    /// Each letter's levels.
    levels: [Levels; LETTERS],
    /// Whether a letter's levels rank: while its latest round quote admits the side by its
    /// condition, or it has none; D's while its FINRA best has that side.
    pub levels_rank: [bool; LETTERS],
    /// The best of each letter's levels, counting if they rank.
    odd: Ranking<LETTERS>,
    pub leaders: Leaders,
}

impl PageSide {
    pub const EMPTY: PageSide = PageSide {
        quotes: Ranking::EMPTY,
        makers: Ranking::EMPTY,
        levels: [Levels::EMPTY; LETTERS],
        levels_rank: {
            let mut ranks = [true; LETTERS];
            ranks[(FINRA - b'A') as usize] = false;
            ranks
        },
        odd: Ranking::EMPTY,
        leaders: Leaders {
            national: Candidate::NONE,
            second: Candidate::NONE,
            finra: Candidate::NONE,
            odd: Candidate::NONE,
        },
    };

    /// A letter's quote, whether it counts or not.
    #[inline]
    pub fn quote(&self, letter: u8) -> Candidate {
        self.quotes.standing(place(letter))
    }

    #[inline]
    pub fn set_quote(&mut self, letter: u8, quote: Candidate, counts: bool) {
        self.quotes.set(place(letter), quote, counts);
    }

    #[inline]
    pub fn levels(&self, letter: u8) -> Levels {
        self.levels[place(letter)]
    }

    #[inline]
    pub fn set_levels<const M: u8>(&mut self, letter: u8, levels: Levels) {
        self.levels[place(letter)] = levels;
        self.place_level::<M>(letter);
    }

    /// From now on a letter's levels rank, or they don't. They stay stored.
    #[inline]
    pub fn rank_levels<const M: u8>(&mut self, letter: u8, rank: bool) {
        if self.levels_rank[place(letter)] != rank || M == mistake::UNQUOTED_HIDDEN {
            self.levels_rank[place(letter)] = rank;
            if M == mistake::CLOSED_CLEARS && !rank {
                self.levels[place(letter)] = Levels::EMPTY;
            }
            self.place_level::<M>(letter);
        }
    }

    #[inline]
    fn place_level<const M: u8>(&mut self, letter: u8) {
        let best = self.levels[place(letter)].best::<M>();
        let mut ranks = self.levels_rank[place(letter)];
        if M == mistake::UNQUOTED_HIDDEN {
            ranks &= self.quote(letter) != Candidate::NONE;
        }
        if M == mistake::FINRA_ODD_UNRANKED {
            ranks &= letter != FINRA;
        }
        self.odd.set(place(letter), best, best.stands() && ranks);
    }

    /// A letter's quote if it counts, else none.
    #[inline]
    pub fn counting_quote(&self, letter: u8) -> Candidate {
        self.quotes.counting(place(letter))
    }

    /// The best of one letter's levels if they rank, else none.
    #[inline]
    pub fn best_level_of(&self, letter: u8) -> Candidate {
        self.odd.counting(place(letter))
    }

    /// FINRA best: over makers' counting sides.
    #[inline]
    pub fn best_maker<const M: u8>(&self) -> Candidate {
        self.makers.best::<M>()
    }

    /// National best: over letters' counting sides, D among them.
    #[inline]
    pub fn best_quote<const M: u8>(&self) -> Candidate {
        self.quotes.best::<M>()
    }

    /// The second best nationally: the best of the other letters' counting sides. D is one letter,
    /// so that its other makers are no second best.
    #[inline]
    pub fn second_quote<const M: u8>(&self) -> Candidate {
        let Leaders {
            national, finra, ..
        } = self.leaders;
        if !national.stands() {
            return Candidate::NONE;
        }
        let second = self.quotes.best_beside::<M>(place(national.letter()));
        let others = |letter: &u8| *letter != national.letter() && *letter != second.letter();
        let counting = |letter: u8| Some(self.counting_quote(letter)).filter(Candidate::stands);
        match M {
            mistake::REASON_OF_THIRD => {
                let others = (b'A'..=b'Z').filter(others).filter_map(counting);
                let third = others.reduce(|a, b| if b.beats::<M>(&a) { b } else { a });
                third.unwrap_or(second)
            }
            mistake::REASON_OF_LAST => {
                let others = (b'A'..=b'Z').filter(|&letter| letter != national.letter());
                others.filter_map(counting).next_back().unwrap_or(second)
            }
            mistake::SECOND_MAKER if national.letter() == FINRA => {
                let cells = 0..MAKERS_MAX;
                let others = cells.map(|cell| self.makers.counting(cell));
                let others = others.filter(|maker| maker.stands() && *maker != finra);
                others.fold(second, |a, b| if b.beats::<M>(&a) { b } else { a })
            }
            _ => second,
        }
    }

    /// The best of all letters' levels that rank.
    #[inline]
    pub fn best_level<const M: u8>(&self) -> Candidate {
        self.odd.best::<M>()
    }

    /// D stands nationally with its FINRA best and that maker's condition. This condition is R: L
    /// admits neither side, and makers have no other. D's levels rank while it stands.
    #[inline]
    pub fn place_finra<const M: u8>(&mut self) {
        let mut finra = self.leaders.finra;
        let counts = finra.stands();
        finra.name = national_name(FINRA, b'R');
        if M == mistake::FINRA_WITHOUT_TIME {
            finra.time = 0;
        }
        self.set_quote(FINRA, finra, counts);
        let rank = match M {
            mistake::FINRA_ODD_WITHOUT_MAKER => true,
            mistake::FINRA_ODD_BY_ANY_MAKER => self.any_maker(),
            _ => counts,
        };
        self.rank_levels::<M>(FINRA, rank);
    }

    /// Whether a maker stands that shows a price on this side, counting or not.
    fn any_maker(&self) -> bool {
        (0..MAKERS_MAX).any(|cell| self.makers.standing(cell).stands())
    }
}
