//! One ranking of a symbol's side: national, FINRA or odd.

use std::hint::select_unpredictable;

use super::candidate::Candidate;

/// Candidates by their places, an even number of them, at most 32.
pub struct Ranking<const N: usize> {
    /// The rank of each candidate that counts, 0 for the others.
    ranks: [u64; N],
    candidates: [Candidate; N],
}

impl<const N: usize> Ranking<N> {
    pub const EMPTY: Ranking<N> = {
        assert!(N.is_multiple_of(2) && N <= 32);
        Ranking {
            ranks: [0; N],
            candidates: [Candidate::NONE; N],
        }
    };

    #[inline]
    pub fn set(&mut self, place: usize, candidate: Candidate, counts: bool) {
        self.ranks[place] = if counts { candidate.rank } else { 0 };
        self.candidates[place] = candidate;
    }

    /// What stands in a place, whether it counts or not.
    #[inline]
    pub fn standing(&self, place: usize) -> Candidate {
        self.candidates[place]
    }

    /// What stands in a place if it counts, else none.
    #[inline]
    pub fn counting(&self, place: usize) -> Candidate {
        if self.ranks[place] > 0 {
            self.candidates[place]
        } else {
            Candidate::NONE
        }
    }

    /// The sizes that count at a rank, added up.
    pub fn shown_at(&self, rank: u64) -> u32 {
        let places = self.ranks.iter().zip(&self.candidates);
        let shown = places.filter(|(&other, _)| other == rank && rank > 0);
        shown.fold(0, |sum, (_, candidate)| {
            u32::saturating_add(sum, candidate.size)
        })
    }

    /// The best of all that count, or none.
    #[inline]
    pub fn best<const M: u8>(&self) -> Candidate {
        self.best_by::<M>(&self.ranks)
    }

    /// The best of all that count but the one in this place, or none.
    #[inline]
    pub fn best_beside<const M: u8>(&self, place: usize) -> Candidate {
        let mut ranks = self.ranks;
        ranks[place] = 0;
        self.best_by::<M>(&ranks)
    }

    /// The best of those with a rank: the best price first, then the order among the candidates at
    /// that price.
    #[inline]
    fn best_by<const M: u8>(&self, ranks: &[u64; N]) -> Candidate {
        let mut best = &Candidate::NONE;
        let top = top_rank(ranks);
        if top > 0 {
            let mut left = places_of(ranks, top);
            while left != 0 {
                let candidate = &self.candidates[left.trailing_zeros() as usize];
                if candidate.beats::<M>(best) {
                    best = candidate;
                }
                left &= left - 1;
            }
        }
        *best
    }
}

/// The highest rank, 0 if nothing counts. Two maxima are kept apart, and selected rather than
/// branched to, since the branches could not be predicted.
#[inline]
fn top_rank<const N: usize>(ranks: &[u64; N]) -> u64 {
    let mut tops = [0; 2];
    for pair in ranks.chunks_exact(2) {
        for (top, &rank) in tops.iter_mut().zip(pair) {
            *top = select_unpredictable(rank > *top, rank, *top);
        }
    }
    tops[0].max(tops[1])
}

/// A bit for each place with this rank.
#[inline]
fn places_of<const N: usize>(ranks: &[u64; N], rank: u64) -> u32 {
    let places = ranks.iter().enumerate();
    places.fold(0, |bits, (place, &other)| {
        bits | u32::from(other == rank) << place
    })
}
