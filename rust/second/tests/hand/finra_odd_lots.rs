//! T-05: FINRA's odd lots, Q T on a line of D. They stand as levels of the letter D.

use crate::desk::*;
use second::build::{self, Odd, Shown};

/// Q T for ZT on D's line.
fn of_d(clear: u8, bids: &[Shown], offers: &[Shown]) -> Vec<u8> {
    finra_odd_lot(D, &odd(clear, bids, offers))
}

/// A maker's quote of ZT far from every level, so that those of D rank (T-07).
fn far() -> Vec<u8> {
    maker("ZZ", (CENT, 1), (9 * TEN, 1))
}

/// A message with another time.
fn at(message: Vec<u8>, time: u64) -> Vec<u8> {
    with(message, 4, &time.to_be_bytes())
}

#[test]
fn they_stand_as_levels_of_d() {
    each_desk(|desk| {
        assert_eq!(desk.message(D, far()), (0, 15));
        let before = desk.entries("ZT");
        let message = of_d(b' ', &[(TEN, 30)], &[(TEN + CENT, 40)]);
        assert_eq!(desk.message(D, message), (0, 16 | 32));
        assert_eq!(desk.odd_bid(), entry("D", TEN, 30));
        assert_eq!(desk.odd_offer(), entry("D", TEN + CENT, 40));
        assert_eq!(&desk.publication("ZT")[64..68], b"D   ");
        assert_eq!(desk.entries("ZT")[..4], before[..4]);
        assert_eq!(desk.entries("YY"), vec![none(); 6]);
    });
}

#[test]
fn faults_in_their_order() {
    each_desk(|desk| {
        desk.code(D, far());
        let mut message = of_d(b'?', &[(TEN, 1)], &[]);
        message[1] = b't';
        message[3] = 1;
        message[20] = b'a';
        message.push(0);
        assert_eq!(desk.code(N, message.clone()), 40);
        message[1] = b'T';
        assert_eq!(desk.code(N, message.clone()), 41);
        message[2] = b'N';
        assert_eq!(desk.code(N, message.clone()), 42);
        message.pop();
        assert_eq!(desk.code(N, message.clone()), 43);
        message[3] = 0;
        assert_eq!(desk.code(N, message.clone()), 44);
        message[2] = b'D';
        assert_eq!(desk.code(D, message.clone()), 45);
        message[20] = b'Y';
        assert_eq!(desk.code(D, message.clone()), 45);
        message[20] = b'Z';
        assert_eq!(desk.code(D, message.clone()), 60);
        message[31] = b' ';
        assert_eq!(desk.message(D, message), (0, 16));
    });
}

#[test]
fn lengths_and_fixed_bytes() {
    each_desk(|desk| {
        for line in [D, N] {
            let part = odd(b' ', &[(TEN, 1)], &[(TEN, 1)]);
            let message = finra_odd_lot(line, &part);
            assert_eq!(message.len(), 60);
            for len in [20, 31, 32, 33, 35, 36, 48, 59] {
                assert_eq!(desk.code(line, message[..len].to_vec()), 42);
            }
            for counts in [[0, 1], [1, 2], [255, 255]] {
                assert_eq!(desk.code(line, with(message.clone(), 32, &counts)), 42);
            }
            for zero in [3, 34, 35] {
                assert_eq!(desk.code(line, with(message.clone(), zero, &[1])), 43);
            }
        }
        assert_eq!(desk.entries("ZT"), vec![none(); 6]);
    });
}

#[test]
fn the_line_decides() {
    each_desk(|desk| {
        let part = odd(b' ', &[(TEN, 5)], &[]);
        for line in [A, N, P] {
            assert_eq!(desk.message(line, finra_odd_lot(line, &part)), (44, 0));
        }
        // Q K and Q M on D's line keep 44.
        assert_eq!(desk.message(D, odd_lot(D, &part)), (44, 0));
        assert_eq!(desk.code(D, quote(&round(D, NOTHING, NOTHING))), 44);
        assert_eq!(desk.entries("ZT"), vec![none(); 6]);
        // On N's line the letter D is 41, whichever of the two it is.
        assert_eq!(desk.code(N, finra_odd_lot(D, &part)), 41);
        assert_eq!(desk.code(N, odd_lot(D, &part)), 41);
        desk.code(D, far());
        assert_eq!(desk.message(N, odd_lot(N, &part)), (0, 16));
        assert_eq!(desk.message(D, finra_odd_lot(D, &part)), (0, 16));
        assert_eq!(desk.odd_bid(), entry("D", TEN, 5));
    });
}

#[test]
fn every_line_of_d_is_ds_line() {
    each_desk(|desk| {
        let second = 40;
        desk.code(D, far());
        assert_eq!(desk.book.open_line(second, b'D'), 0);
        assert_eq!(desk.code(D, of_d(b' ', &four_bids(), &[])), 0);
        let fifth = of_d(b' ', &[(TEN, 1)], &[]);
        assert_eq!(desk.code(second, fifth), 64);
        assert_eq!(desk.message(second, of_d(b'B', &[], &[])), (0, 16));
        assert_eq!(desk.odd_bid(), none());
    });
}

/// Odd parts that each code refuses, for D with four bids and one offer standing.
fn refused_parts() -> Vec<(u8, Odd)> {
    let fine = (TEN + 9 * CENT, 1);
    let mut parts = vec![(60, odd(b'b', &[fine], &[fine]))];
    for clear in [b'B', b'S', b'X'] {
        parts.push((61, odd(clear, &[fine; 5], &[])));
        parts.push((61, odd(clear, &[], &[fine; 5])));
        parts.push((62, odd(clear, &[fine], &[fine, (0, 0)])));
        parts.push((63, odd(clear, &[fine], &[fine, (TEN, 100)])));
    }
    parts.push((64, odd(b'S', &[fine], &[fine])));
    parts
}

#[test]
fn a_refused_one_is_rejected_and_does_nothing() {
    for (code, part) in refused_parts() {
        each_desk(|desk| {
            desk.code(D, far());
            let standing = of_d(b' ', &four_bids(), &[(TEN + 8 * CENT, 1)]);
            assert_eq!(desk.code(D, standing), 0);
            let before = desk.entries("ZT");
            let (report, answers) = desk.send(D, &[finra_odd_lot(D, &part)]);
            assert_eq!((report.accepted, report.partly, report.rejected), (0, 0, 1));
            assert_eq!(answers, [[0, code, 0, 0]]);
            assert_eq!(desk.entries("ZT"), before);
            assert_eq!(desk.odd_offer(), entry("D", TEN + 8 * CENT, 1));
            for (price, shares) in four_bids().into_iter().rev() {
                assert_eq!(desk.odd_bid(), entry("D", price, shares));
                assert_eq!(desk.code(D, of_d(b' ', &[(price, 0)], &[])), 0);
            }
            assert_eq!(desk.odd_bid(), none());
        });
    }
}

#[test]
fn four_levels_a_side_beside_those_of_others() {
    each_desk(|desk| {
        desk.code(D, far());
        assert_eq!(desk.code(N, odd_lot(N, &odd(b' ', &four_bids(), &[]))), 0);
        assert_eq!(desk.code(D, of_d(b' ', &four_bids(), &four_bids())), 0);
        assert_eq!(desk.code(D, of_d(b' ', &[(TEN, 1)], &[])), 64);
        assert_eq!(desk.code(D, of_d(b' ', &[], &[(TEN, 1)])), 64);
        // A known price is replaced, a removal makes room, a clear too; N's levels stay.
        let known = (TEN + 4 * CENT, 7);
        assert_eq!(desk.message(D, of_d(b' ', &[known], &[])), (0, 16));
        assert_eq!(desk.odd_bid(), entry("D", TEN + 4 * CENT, 7));
        let better = (TEN + 5 * CENT, 2);
        let removed = (TEN + CENT, 0);
        assert_eq!(desk.code(D, of_d(b' ', &[better, removed], &[])), 64);
        assert_eq!(desk.code(D, of_d(b' ', &[removed, better], &[])), 0);
        assert_eq!(desk.odd_bid(), entry("D", TEN + 5 * CENT, 2));
        assert_eq!(desk.message(D, of_d(b'X', &[], &[])), (0, 16 | 32));
        assert_eq!(desk.odd_bid(), entry("N", TEN + 4 * CENT, 1));
        assert_eq!(desk.odd_offer(), none());
        assert_eq!(desk.code(N, odd_lot(N, &odd(b' ', &[(TEN, 1)], &[]))), 64);
    });
}

#[test]
fn they_are_ranked_with_the_letter_d() {
    each_desk(|desk| {
        desk.code(D, far());
        let mut send = |line: u32, time, price, shares, name: &str| {
            let part = odd(b' ', &[(price, shares)], &[]);
            let message = match line {
                D => finra_odd_lot(D, &part),
                _ => odd_lot(line, &part),
            };
            assert_eq!(desk.code(line, at(message, time)), 0);
            assert_eq!(desk.odd_bid().0, name);
        };
        send(P, 9, TEN, 5, "P");
        // Larger shares, then the earlier time, then the lower letter, and first of all the price.
        send(D, 9, TEN, 6, "D");
        send(N, 9, TEN, 6, "D");
        send(N, 8, TEN, 6, "N");
        send(D, 8, TEN, 6, "D");
        send(A, 8, TEN, 6, "A");
        send(D, 7, TEN, 6, "D");
        send(P, 9, TEN + 1, 1, "P");
        send(D, 9, TEN + 1, 1, "D");
    });
}

#[test]
fn they_are_judged_against_the_national_price() {
    each_desk(|desk| {
        desk.code(D, far());
        let levels = of_d(b' ', &[(TEN, 9), (TEN + CENT, 8)], &[(TEN + 2 * CENT, 7)]);
        assert_eq!(desk.message(D, levels), (0, 16 | 32));
        // D's own FINRA best is a national price like any other.
        let own = maker("AA", (TEN, 1), (TEN + 3 * CENT, 1));
        assert_eq!(desk.message(D, own), (0, 1 | 2 | 4 | 8));
        assert_eq!(desk.odd_bid(), entry("D", TEN + CENT, 8));
        let better = maker("AA", (TEN + CENT, 1), (TEN + 2 * CENT, 1));
        assert_eq!(desk.message(D, better), (0, 63));
        assert_eq!((desk.odd_bid(), desk.odd_offer()), (none(), none()));
        let gone = maker("AA", NOTHING, NOTHING);
        assert_eq!(desk.message(D, gone), (0, 63));
        assert_eq!(desk.odd_bid(), entry("D", TEN + CENT, 8));
        let round = quote(&round(N, (TEN + CENT, 1), NOTHING));
        assert_eq!(desk.message(N, round), (0, 1 | 16));
        assert_eq!(desk.odd_bid(), none());
        assert_eq!(desk.odd_offer(), entry("D", TEN + 2 * CENT, 7));
    });
}

#[test]
fn makers_and_days_leave_them() {
    each_desk(|desk| {
        let bid = entry("D", TEN, 9);
        assert_eq!(desk.code(D, of_d(b' ', &[(TEN, 9)], &[])), 0);
        let quote = maker("AA", (TEN - CENT, 1), NOTHING);
        let empty = maker("AA", NOTHING, NOTHING);
        // They are seen whenever the FINRA best has a bid.
        for (message, seen) in [
            (control(b'C', D), none()),
            (control(b'O', D), none()),
            (empty.clone(), none()),
            (quote.clone(), bid.clone()),
            (control(b'C', D), none()),
            (control(b'O', D), bid.clone()),
            (empty, none()),
            (quote.clone(), bid.clone()),
        ] {
            assert_eq!(desk.code(D, message), 0);
            assert_eq!(desk.odd_bid(), seen);
        }
        assert_eq!(desk.book.end_day(), 0);
        assert_eq!(desk.odd_bid(), bid);
        assert_eq!(desk.book.start_day(), 0);
        assert_eq!(desk.odd_bid(), none());
        assert_eq!(desk.code(D, quote), 0);
        assert_eq!(desk.odd_bid(), none());
        // None of the old levels stands: there is room for four.
        assert_eq!(desk.code(D, of_d(b' ', &four_bids(), &[])), 0);
    });
}

#[test]
fn they_name_their_symbol() {
    each_desk(|desk| {
        let in_yy = with(far(), 20, &build::symbol("YY"));
        assert_eq!(desk.code(D, far()), 0);
        assert_eq!(desk.code(D, in_yy), 0);
        assert_eq!(desk.code(D, of_d(b' ', &[(TEN, 9)], &[])), 0);
        let before = desk.publication("ZT");
        let other = |shares| {
            let part = odd(b' ', &[(TEN, shares)], &[]);
            build::finra_odd_lot(b'D', 7, build::symbol("YY"), &part)
        };
        // YY has a round lot of 10.
        assert_eq!(desk.message(D, other(10)), (63, 0));
        assert_eq!(desk.message(D, other(9)), (0, 16));
        assert_eq!(desk.publication("ZT"), before);
        assert_eq!(desk.entries("YY")[4], entry("D", TEN, 9));
    });
}
