//! Hand-written entries and change flags.

use crate::desk::*;
use second::build;

/// Q U with another time and condition.
fn maker_at(name: &str, time: u64, condition: u8, bid: (u64, u32)) -> Vec<u8> {
    let mut round = round(D, bid, NOTHING);
    round.time = time;
    round.condition = condition;
    build::maker_quote(&round, build::maker(name))
}

/// Q M with another time.
fn odd_lot_at(line: u32, time: u64, bids: &[(u64, u32)]) -> Vec<u8> {
    let mut message = odd_lot(line, &odd(b' ', bids, &[]));
    message[4..12].copy_from_slice(&time.to_be_bytes());
    message
}

#[test]
fn finra_order() {
    each_desk(|desk| {
        let mut send = |name, time, price, size, leader| {
            desk.code(D, maker_at(name, time, b'R', (price, size)));
            assert_eq!(desk.finra_bid().0, leader);
        };
        send("CC", 9, TEN, 1, "CC");
        send("DD", 9, TEN - 1, 99, "CC");
        send("EE", 9, TEN, 2, "EE");
        send("FF", 8, TEN, 2, "FF");
        send("FA", 8, TEN, 2, "FA");
        send("F", 8, TEN, 2, "F");
        send("G", 0, TEN + 1, 1, "G");
    });
}

#[test]
fn offers_rank_by_the_lowest_price() {
    each_desk(|desk| {
        for (line, price) in [(A, u64::MAX), (N, TEN), (P, TEN + 1)] {
            desk.code(line, quote(&round(line, NOTHING, (price, 1))));
        }
        assert_eq!(desk.national_offer(), entry("NRP", TEN, 1));
        desk.code(N, quote(&round(N, NOTHING, NOTHING)));
        assert_eq!(desk.national_offer(), entry("PRP", TEN + 1, 1));
        desk.code(P, quote(&round(P, NOTHING, (1, 0))));
        assert_eq!(desk.national_offer(), entry("AR", u64::MAX, 1));
    });
}

#[test]
fn d_stands_with_its_finra_best() {
    each_desk(|desk| {
        assert_eq!(desk.message(D, maker_at("ZZ", 7, b'R', (TEN, 3))), (0, 5));
        assert_eq!(desk.national_bid(), entry("DR", TEN, 3));
        desk.code(N, quote(&round(N, (TEN, 3), NOTHING)));
        assert_eq!(desk.national_bid(), entry("DRL", TEN, 3));
        desk.code(A, quote(&round(A, (TEN, 3), NOTHING)));
        assert_eq!(desk.national_bid(), entry("ARL", TEN, 3));
        // A better maker changes the FINRA entry alone while D does not lead.
        assert_eq!(desk.message(D, maker_at("YY", 7, b'R', (TEN, 3))), (0, 4));
        // Resent, it keeps its time; an earlier one of another maker brings D in front.
        assert_eq!(desk.message(D, maker_at("YY", 6, b'R', (TEN, 3))), (0, 0));
        assert_eq!(desk.message(D, maker_at("YZ", 6, b'R', (TEN, 3))), (0, 5));
        assert_eq!(desk.national_bid(), entry("DRT", TEN, 3));
    });
}

#[test]
fn two_makers_for_the_two_sides() {
    each_desk(|desk| {
        desk.code(D, maker("AA", (TEN, 1), (TEN + 2 * CENT, 1)));
        desk.code(D, maker("BB", (TEN - CENT, 1), (TEN + CENT, 1)));
        let entries = desk.entries("ZT");
        assert_eq!(entries[0], entry("DR", TEN, 1));
        assert_eq!(entries[1], entry("DR", TEN + CENT, 1));
        assert_eq!(entries[2], entry("AA", TEN, 1));
        assert_eq!(entries[3], entry("BB", TEN + CENT, 1));
    });
}

#[test]
fn finra_close_and_open() {
    each_desk(|desk| {
        desk.code(D, maker_at("AA", 5, b'R', (TEN, 1)));
        desk.code(D, maker_at("BB", 4, b'L', (TEN, 1)));
        let mut other = maker("CC", NOTHING, (TEN, 1));
        other[20..31].copy_from_slice(&build::symbol("YY"));
        desk.code(D, other);
        // Entries change in both symbols.
        assert_eq!(desk.message(D, control(b'C', D)), (0, 1 | 4 | 2 | 8));
        assert_eq!(desk.finra_bid(), none());
        assert_eq!(desk.entries("YY"), vec![none(); 6]);
        // A later Q U has its own condition again.
        assert_eq!(
            desk.message(D, maker_at("CC", 9, b'R', (TEN - 1, 1))),
            (0, 5)
        );
        // Open also brings a quote that was sent with L; times hold.
        assert_eq!(desk.message(D, control(b'O', D)), (0, 1 | 4 | 2 | 8));
        assert_eq!(desk.finra_bid(), entry("BB", TEN, 1));
        assert_eq!(desk.message(D, control(b'O', D)), (0, 0));
        // A freed maker is not brought back.
        desk.code(D, control(b'C', D));
        desk.code(D, maker("BB", NOTHING, NOTHING));
        desk.code(D, control(b'O', D));
        assert_eq!(desk.finra_bid(), entry("AA", TEN, 1));
    });
}

#[test]
fn close_reaches_odd_entries() {
    each_desk(|desk| {
        desk.code(D, maker("AA", (TEN, 1), NOTHING));
        desk.code(N, odd_lot(N, &odd(b' ', &[(TEN, 9)], &[])));
        assert_eq!(desk.odd_bid(), none());
        assert_eq!(desk.message(D, control(b'C', D)), (0, 1 | 4 | 16));
        assert_eq!(desk.odd_bid(), entry("N", TEN, 9));
        assert_eq!(desk.message(D, control(b'O', D)), (0, 1 | 4 | 16));
        assert_eq!(desk.odd_bid(), none());
    });
}

#[test]
fn odd_order() {
    each_desk(|desk| {
        let mut send = |line, time, price, shares, name: &str| {
            desk.code(line, odd_lot_at(line, time, &[(price, shares)]));
            assert_eq!(desk.odd_bid().0, name);
        };
        send(P, 9, TEN, 5, "P");
        send(N, 9, TEN, 4, "P");
        send(N, 9, TEN, 6, "N");
        send(A, 9, TEN, 6, "A");
        send(P, 8, TEN, 6, "P");
        // A known price is replaced, its time too, though shares are equal.
        send(P, 10, TEN, 6, "A");
        send(P, 10, TEN + 1, 1, "P");
    });
}

#[test]
fn odd_levels_follow_the_national_price() {
    each_desk(|desk| {
        let levels = [(TEN, 9), (TEN + CENT, 8), (TEN + 2 * CENT, 7)];
        desk.code(N, odd_lot(N, &odd(b' ', &levels, &[(TEN, 5)])));
        assert_eq!(desk.odd_bid(), entry("N", TEN + 2 * CENT, 7));
        assert_eq!(desk.odd_offer(), entry("N", TEN, 5));
        // The letter's own quote is like any other's; a quote of the other side plays no part.
        let high = quote(&round(N, (TEN + 2 * CENT, 1), NOTHING));
        assert_eq!(desk.message(N, high), (0, 1 | 16));
        assert_eq!(desk.odd_bid(), none());
        let low = quote(&round(N, (TEN + CENT, 1), (TEN + CENT, 1)));
        assert_eq!(desk.message(N, low), (0, 1 | 2 | 16));
        assert_eq!(desk.odd_bid(), entry("N", TEN + 2 * CENT, 7));
        // Locked sides have no rule; an offer at the level takes it off.
        let locked = quote(&round(P, NOTHING, (TEN, 1)));
        assert_eq!(desk.message(P, locked), (0, 2 | 32));
        assert_eq!(desk.odd_offer(), none());
    });
}

#[test]
fn flags_of_a_block_follow_each_message() {
    each_desk(|desk| {
        let first = quote(&round(N, (TEN, 3), (TEN + CENT, 2)));
        let same = {
            let mut round = round(N, (TEN, 3), (TEN + CENT, 2));
            round.time = 9;
            quote(&round)
        };
        let gone = quote(&round(N, NOTHING, NOTHING));
        let (_, answers) = desk.send(N, &[first.clone(), same, gone, first]);
        let flags: Vec<u8> = answers.iter().map(|answer| answer[2]).collect();
        assert_eq!(flags, [3, 0, 3, 3]);
    });
}

#[test]
fn a_message_touches_its_symbol_only() {
    each_desk(|desk| {
        desk.code(N, quote(&round(N, (TEN, 3), NOTHING)));
        let before = desk.publication("ZT");
        let mut other = round(N, (TEN + CENT, 1), (TEN + CENT, 1));
        other.symbol = build::symbol("YY");
        assert_eq!(desk.message(N, quote(&other)), (0, 3));
        assert_eq!(desk.publication("ZT"), before);
        assert_eq!(desk.entries("YY")[0], entry("NR", TEN + CENT, 1));
    });
}

#[test]
fn the_condition_is_published() {
    each_desk(|desk| {
        let mut round = round(N, (TEN, 3), (TEN + CENT, 2));
        desk.code(N, quote(&round));
        round.condition = b'W';
        assert_eq!(desk.message(N, quote(&round)), (0, 3));
        assert_eq!(desk.national_bid(), entry("NW", TEN, 3));
        round.condition = b'C';
        assert_eq!(desk.message(N, quote(&round)), (0, 3));
        assert_eq!(desk.national_bid(), none());
    });
}
