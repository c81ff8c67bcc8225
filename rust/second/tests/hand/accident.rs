//! The accident that the mission names: an odd part is refused, and its clear must not stay. A Q K
//! keeps its round part, a Q M is rejected.

use crate::desk::*;
use second::build::{self, Odd};

/// Odd parts that each code refuses, for a letter with four bids and one offer standing.
fn refused_parts() -> Vec<(u8, Odd)> {
    let fine = (TEN + 9 * CENT, 1);
    let mut parts = Vec::new();
    for clear in [b'B', b'S', b'X'] {
        parts.push((61, odd(clear, &[fine; 5], &[])));
        parts.push((61, odd(clear, &[], &[fine; 5])));
        parts.push((62, odd(clear, &[fine, (0, 1)], &[fine])));
        parts.push((62, odd(clear, &[fine], &[(0, 0)])));
        parts.push((63, odd(clear, &[(TEN, 100)], &[fine])));
        parts.push((63, odd(clear, &[fine], &[fine, (TEN, 100)])));
    }
    // A fifth bid can only come with a clear of the offers.
    parts.push((64, odd(b'S', &[fine], &[fine])));
    parts.push((60, odd(b'b', &[fine], &[fine])));
    parts
}

fn stand_levels(desk: &mut Desk) -> Vec<Entry> {
    let part = odd(b' ', &four_bids(), &[(TEN + 8 * CENT, 1)]);
    assert_eq!(desk.code(N, odd_lot(N, &part)), 0);
    desk.entries("ZT")
}

/// Removes what is to stand, level by level, and sees each before it goes.
fn assert_levels_stand(desk: &mut Desk) {
    assert_eq!(desk.odd_offer(), entry("N", TEN + 8 * CENT, 1));
    for (price, shares) in four_bids().into_iter().rev() {
        assert_eq!(desk.odd_bid(), entry("N", price, shares));
        assert_eq!(desk.code(N, odd_lot(N, &odd(b' ', &[(price, 0)], &[]))), 0);
    }
    assert_eq!(desk.odd_bid(), none());
}

#[test]
fn a_rejected_odd_part_whose_clear_must_not_stay() {
    for (code, part) in refused_parts() {
        each_desk(|desk| {
            let before = stand_levels(desk);
            let (report, answers) = desk.send(N, &[odd_lot(N, &part)]);
            assert_eq!((report.accepted, report.partly, report.rejected), (0, 0, 1));
            assert_eq!(answers, [[0, code, 0, 0]]);
            assert_eq!(desk.entries("ZT"), before);
            assert_levels_stand(desk);
        });
    }
}

#[test]
fn q_k_keeps_its_round_part() {
    for (code, part) in refused_parts() {
        each_desk(|desk| {
            let before = stand_levels(desk);
            let round = round(N, (TEN, 3), (TEN + 20 * CENT, 2));
            let (report, answers) = desk.send(N, &[build::round_lot(&round, &part)]);
            assert_eq!((report.accepted, report.partly, report.rejected), (0, 1, 0));
            assert_eq!(answers, [[0, code, 3, 0]]);
            let after = desk.entries("ZT");
            assert_eq!(after[0], entry("NR", TEN, 3));
            assert_eq!(after[1], entry("NR", TEN + 20 * CENT, 2));
            assert_eq!(after[2..], before[2..]);
            assert_levels_stand(desk);
        });
    }
}

#[test]
fn an_accepted_clear_does_stay() {
    each_desk(|desk| {
        stand_levels(desk);
        let clear = odd(b'B', &[(TEN, 1)], &[]);
        assert_eq!(desk.message(N, odd_lot(N, &clear)), (0, 16));
        assert_eq!(desk.odd_bid(), entry("N", TEN, 1));
        assert_eq!(desk.odd_offer(), entry("N", TEN + 8 * CENT, 1));
        assert_eq!(desk.message(N, odd_lot(N, &odd(b'X', &[], &[]))), (0, 48));
        assert_eq!(desk.odd_bid(), none());
        assert_eq!(desk.odd_offer(), none());
    });
}
