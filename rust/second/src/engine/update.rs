//! How a page's entries follow an accepted message: worked out anew, or step by step.

use super::candidate::{Candidate, Side};
use super::mistake;
use super::page::Page;
use super::page_side::{Leaders, PageSide};
use crate::terms::FINRA;

/// What an accepted message replaced in a page.
#[derive(Clone, Copy)]
pub enum Touched {
    /// The letter's quote, and so whether its levels rank; its levels too, if it had an odd part.
    Quote(u8),
    /// The letter's levels.
    Levels(u8),
    /// The quote in a cell, of the maker with this name.
    Maker(usize, u32),
    /// The conditions of all makers' quotes.
    Makers,
    /// The trading status alone.
    Status,
}

/// A way to keep the six entries. It leaves them as worked out from the page's quotes and status.
pub trait Update {
    /// Brings the entries up to what a message replaced.
    fn update<const M: u8>(page: &mut Page, touched: Touched);
}

/// Works out all six entries of the touched symbol anew, from all letters' quotes, all makers'
/// quotes and the best of each letter's levels.
pub struct Recompute;

impl Update for Recompute {
    #[inline]
    fn update<const M: u8>(page: &mut Page, _: Touched) {
        for side in Side::BOTH {
            rank_side::<M>(&mut page.sides[side as usize]);
            page.publish::<M>(side);
        }
    }
}

/// FINRA best goes first, since D stands with it in the national ranking.
#[inline]
fn rank_side<const M: u8>(side: &mut PageSide) {
    side.leaders.finra = side.best_maker::<M>();
    side.place_finra::<M>();
    side.leaders.national = side.best_quote::<M>();
    side.leaders.second = side.second_quote::<M>();
    if M == mistake::FINRA_ODD_BY_NATIONAL {
        side.rank_levels::<M>(FINRA, side.leaders.national.stands());
    }
    side.leaders.odd = side.best_level::<M>();
}

/// Keeps each ranking's leader, and the second best nationally, and ranks a side again only when its
/// leader or its second best worsens or leaves.
pub struct FollowLeader;

impl Update for FollowLeader {
    #[inline]
    fn update<const M: u8>(page: &mut Page, touched: Touched) {
        for side in Side::BOTH {
            let page_side = &mut page.sides[side as usize];
            match touched {
                Touched::Quote(letter) => {
                    follow_quote::<M>(page_side, letter);
                    if M != mistake::HIDDEN_LEADER_STAYS {
                        follow_levels::<M>(page_side, letter);
                    }
                }
                Touched::Levels(letter) => follow_levels::<M>(page_side, letter),
                Touched::Maker(cell, name) => follow_maker::<M>(page_side, cell, name),
                Touched::Makers => rank_side::<M>(page_side),
                Touched::Status => {}
            }
            page.publish::<M>(side);
        }
    }
}

/// The leader after one candidate of its ranking became `now`, none if it left. No answer means
/// that the ranking has to be gone through again.
#[inline]
fn follow<const M: u8>(leader: Candidate, now: Candidate, led: bool) -> Option<Candidate> {
    if now.stands() && !leader.beats::<M>(&now) {
        return Some(now);
    }
    (!led || M == mistake::LEADER_STAYS).then_some(leader)
}

#[inline]
fn follow_quote<const M: u8>(side: &mut PageSide, letter: u8) {
    let Leaders {
        national: leader,
        second,
        ..
    } = side.leaders;
    let now = side.counting_quote(letter);
    let led = leader.letter() == letter;
    let followed = follow::<M>(leader, now, led);
    side.leaders.national = followed.unwrap_or_else(|| side.best_quote::<M>());
    let follows = match followed {
        None => None,
        Some(new) if new.letter() != leader.letter() => Some(leader),
        Some(_) if led => Some(second),
        Some(_) if M == mistake::SECOND_NOT_PASSED && second.letter() != letter => Some(second),
        Some(_) => {
            let was_second = second.letter() == letter && M != mistake::SECOND_STAYS;
            follow::<M>(second, now, was_second)
        }
    };
    side.leaders.second = follows.unwrap_or_else(|| side.second_quote::<M>());
}

#[inline]
fn follow_levels<const M: u8>(side: &mut PageSide, letter: u8) {
    let leader = side.leaders.odd;
    let now = side.best_level_of(letter);
    let followed = follow::<M>(leader, now, leader.letter() == letter);
    side.leaders.odd = followed.unwrap_or_else(|| side.best_level::<M>());
}

#[inline]
fn follow_maker<const M: u8>(side: &mut PageSide, cell: usize, name: u32) {
    let leader = side.leaders.finra;
    let now = side.makers.counting(cell);
    let followed = follow::<M>(leader, now, leader.name == name);
    side.leaders.finra = followed.unwrap_or_else(|| side.best_maker::<M>());
    if side.leaders.finra != leader {
        side.place_finra::<M>();
        follow_quote::<M>(side, FINRA);
        if M != mistake::FINRA_LEADER_STAYS {
            follow_levels::<M>(side, FINRA);
        }
    }
}
