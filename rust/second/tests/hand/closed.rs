//! Hand-written cases of T-07: "A level now ranks only while its letter's latest round quote admits
//! that side by its condition, whatever price and size it shows", and "D ranks only while its FINRA
//! best has that side, whatever quotes it had."

use crate::desk::*;
use second::build::{self, Odd, Shown};

/// Q K under a condition, with an odd part.
fn quote_under(condition: u8, line: u32, bid: Shown, offer: Shown, odd: &Odd) -> Vec<u8> {
    let mut round = round(line, bid, offer);
    round.condition = condition;
    build::round_lot(&round, odd)
}

/// Q K with both sides 0 and 0 under a condition.
fn shows_nothing(condition: u8, line: u32) -> Vec<u8> {
    quote_under(condition, line, NOTHING, NOTHING, &Odd::IDLE)
}

/// An odd bid at 10.01 for 5 and an odd offer at 10.02 for 6.
fn two() -> Odd {
    odd(b' ', &[(TEN + CENT, 5)], &[(TEN + 2 * CENT, 6)])
}

/// Whether N's odd bid and odd offer of `two` are published.
fn seen(desk: &Desk) -> [bool; 2] {
    seen_of(desk, "N", "ZT")
}

/// Whether those of a letter are, in a symbol.
fn seen_of(desk: &Desk, letter: &str, symbol: &str) -> [bool; 2] {
    let best = [4, 5].map(|at| desk.entries(symbol)[at].clone());
    let two = [
        entry(letter, TEN + CENT, 5),
        entry(letter, TEN + 2 * CENT, 6),
    ];
    [0, 1].map(|side| {
        assert!(best[side] == two[side] || best[side] == none());
        best[side] == two[side]
    })
}

#[test]
fn each_condition() {
    each_desk(|desk| {
        desk.code(N, odd_lot(N, &two()));
        for condition in *b"ABHORWEFCNU" {
            let admits = match condition {
                b'E' => [false, true],
                b'F' => [true, false],
                b'C' | b'N' | b'U' => [false, false],
                _ => [true, true],
            };
            let before = seen(desk);
            let changed = [0, 1].map(|side| u8::from(before[side] != admits[side]));
            let flags = 16 * changed[0] + 32 * changed[1];
            assert_eq!(desk.message(N, shows_nothing(condition, N)), (0, flags));
            assert_eq!(seen(desk), admits);
        }
    });
}

#[test]
fn no_round_quote_since_start_of_day() {
    each_desk(|desk| {
        assert_eq!(desk.message(N, odd_lot(N, &two())), (0, 16 | 32));
        // Another letter's quote and one in another symbol play no part.
        assert_eq!(desk.message(P, shows_nothing(b'C', P)), (0, 0));
        let mut other = round(N, NOTHING, NOTHING);
        (other.condition, other.symbol) = (b'C', build::symbol("YY"));
        assert_eq!(desk.message(N, quote(&other)), (0, 0));
        assert_eq!(seen(desk), [true, true]);
        // A rejected quote is none.
        assert_eq!(desk.code(N, shows_nothing(b'L', N)), 46);
        assert_eq!(seen(desk), [true, true]);
        assert_eq!(desk.message(N, shows_nothing(b'C', N)), (0, 16 | 32));
        // End of Day keeps it, Start of Day forgets it.
        assert_eq!(desk.book.end_day(), 0);
        assert_eq!(seen(desk), [false, false]);
        assert_eq!(desk.book.start_day(), 0);
        assert_eq!(desk.message(N, odd_lot(N, &two())), (0, 16 | 32));
    });
}

#[test]
fn a_closing_quote_and_back() {
    each_desk(|desk| {
        let (bid, offer) = ((TEN, 3), (TEN + 3 * CENT, 2));
        let quote = |condition| quote_under(condition, N, bid, offer, &Odd::IDLE);
        desk.code(N, quote_under(b'R', N, bid, offer, &two()));
        desk.code(P, odd_lot(P, &odd(b' ', &[(TEN + 1, 1)], &[])));
        assert_eq!(seen(desk), [true, true]);
        // One quote takes N out of the race and hides its levels; P's bid leads.
        assert_eq!(desk.message(N, quote(b'C')), (0, 1 | 2 | 16 | 32));
        assert_eq!(desk.odd_bid(), entry("P", TEN + 1, 1));
        assert_eq!(desk.odd_offer(), none());
        assert_eq!(desk.message(N, quote(b'U')), (0, 0));
        assert_eq!(desk.message(N, quote(b'F')), (0, 1 | 16));
        assert_eq!(seen(desk), [true, false]);
        assert_eq!(desk.message(N, quote(b'R')), (0, 1 | 2 | 32));
        assert_eq!(seen(desk), [true, true]);
        // Shown again under the same condition, nothing changes.
        assert_eq!(desk.message(N, quote(b'R')), (0, 0));
    });
}

#[test]
fn indications_admit() {
    each_desk(|desk| {
        desk.code(N, odd_lot(N, &two()));
        let indication =
            |condition| quote_under(condition, N, (TEN, 0), (TEN + 3 * CENT, 0), &Odd::IDLE);
        assert_eq!(desk.message(N, indication(b'R')), (0, 0));
        assert_eq!(seen(desk), [true, true]);
        assert_eq!(desk.message(N, indication(b'N')), (0, 16 | 32));
        assert_eq!(seen(desk), [false, false]);
    });
}

#[test]
fn items_of_the_same_message() {
    each_desk(|desk| {
        let with_items = |condition| quote_under(condition, N, NOTHING, NOTHING, &two());
        assert_eq!(desk.message(N, shows_nothing(b'R', N)), (0, 0));
        assert_eq!(desk.message(N, with_items(b'C')), (0, 0));
        assert_eq!(seen(desk), [false, false]);
        assert_eq!(desk.message(N, with_items(b'E')), (0, 32));
        assert_eq!(seen(desk), [false, true]);
        assert_eq!(desk.message(N, with_items(b'W')), (0, 16));
        assert_eq!(seen(desk), [true, true]);
    });
}

#[test]
fn hidden_levels_are_stored_and_cleared() {
    each_desk(|desk| {
        assert_eq!(desk.message(N, shows_nothing(b'C', N)), (0, 0));
        // Four fit, a fifth is 64, of a Q K too, whose condition still counts.
        let four = odd(b' ', &four_bids(), &[]);
        let fifth = odd(b' ', &[(TEN + 5 * CENT, 1)], &[]);
        assert_eq!(desk.message(N, odd_lot(N, &four)), (0, 0));
        assert_eq!(desk.message(N, odd_lot(N, &fifth)), (64, 0));
        let partly = quote_under(b'R', N, NOTHING, NOTHING, &fifth);
        assert_eq!(desk.message(N, partly), (64, 16));
        assert_eq!(desk.odd_bid(), entry("N", TEN + 4 * CENT, 1));
        let partly = quote_under(b'U', N, NOTHING, NOTHING, &fifth);
        assert_eq!(desk.message(N, partly), (64, 16));
        // Removed, replaced and cleared while hidden.
        let changes = [(TEN + 4 * CENT, 0), (TEN + 3 * CENT, 7)];
        assert_eq!(
            desk.message(N, odd_lot(N, &odd(b' ', &changes, &[]))),
            (0, 0)
        );
        assert_eq!(desk.message(N, shows_nothing(b'R', N)), (0, 16));
        assert_eq!(desk.odd_bid(), entry("N", TEN + 3 * CENT, 7));
        assert_eq!(desk.message(N, shows_nothing(b'C', N)), (0, 16));
        assert_eq!(desk.message(N, odd_lot(N, &odd(b'B', &[], &[]))), (0, 0));
        assert_eq!(desk.message(N, shows_nothing(b'R', N)), (0, 0));
        assert_eq!(desk.odd_bid(), none());
    });
}

#[test]
fn finra_touches_no_other_letter() {
    each_desk(|desk| {
        desk.code(N, odd_lot(N, &two()));
        assert_eq!(desk.message(D, maker("AA", (TEN, 1), NOTHING)), (0, 1 | 4));
        assert_eq!(desk.message(D, control(b'C', D)), (0, 1 | 4));
        assert_eq!(desk.message(D, control(b'O', D)), (0, 1 | 4));
        assert_eq!(seen(desk), [true, true]);
    });
}

/// D's levels in ZT, and the same in YY.
fn of_d() -> Vec<u8> {
    finra_odd_lot(D, &odd(b' ', &[(TEN + CENT, 5)], &[(TEN + 2 * CENT, 6)]))
}

fn in_yy(message: Vec<u8>) -> Vec<u8> {
    with(message, 20, &build::symbol("YY"))
}

/// Makers' quotes behind every level: 10.00 for a lot, 10.03 for a lot.
const BID: Shown = (TEN, 1);
const OFFER: Shown = (TEN + 3 * CENT, 1);

#[test]
fn levels_of_d_by_the_finra_best() {
    each_desk(|desk| {
        // Without a maker they are stored and nothing is seen of them.
        assert_eq!(desk.message(D, of_d()), (0, 0));
        assert_eq!(desk.entries("ZT"), vec![none(); 6]);
        let mut send = |message, flags, seen| {
            assert_eq!(desk.message(D, message), (0, flags));
            assert_eq!(seen_of(desk, "D", "ZT"), seen);
        };
        send(maker("AA", BID, NOTHING), 1 | 4 | 16, [true, false]);
        send(maker("AA", NOTHING, OFFER), 63, [false, true]);
        send(maker("AA", BID, OFFER), 1 | 4 | 16, [true, true]);
        // While another maker has the side, nothing is hidden.
        send(maker("BB", BID, NOTHING), 0, [true, true]);
        send(maker("AA", NOTHING, NOTHING), 2 | 4 | 8 | 32, [true, false]);
        send(maker("BB", NOTHING, NOTHING), 1 | 4 | 16, [false, false]);
        // A maker that doesn't count: an indication, one under L.
        send(maker("AA", (TEN, 0), (TEN + CENT, 0)), 0, [false, false]);
        let closed = with(maker("BB", BID, OFFER), 31, b"L");
        send(closed, 0, [false, false]);
        send(control(b'O', D), 63, [true, true]);
        send(control(b'C', D), 63, [false, false]);
    });
}

#[test]
fn levels_of_d_beside_other_letters() {
    each_desk(|desk| {
        assert_eq!(desk.message(D, of_d()), (0, 0));
        // The national best of another letter shows nothing of D, nor does its closing quote hide D.
        assert_eq!(desk.message(N, quote(&round(N, BID, OFFER))), (0, 1 | 2));
        assert_eq!(seen_of(desk, "D", "ZT"), [false, false]);
        let behind = maker("AA", (TEN - CENT, 1), NOTHING);
        assert_eq!(desk.message(D, behind), (0, 1 | 4 | 16));
        assert_eq!(seen_of(desk, "D", "ZT"), [true, false]);
        assert_eq!(desk.message(N, shows_nothing(b'C', N)), (0, 1 | 2));
        assert_eq!(seen_of(desk, "D", "ZT"), [true, false]);
        // P's levels take the lead when FINRA closes, D's when it opens.
        let worse = odd(b' ', &[(TEN + CENT, 4)], &[]);
        assert_eq!(desk.message(P, odd_lot(P, &worse)), (0, 0));
        assert_eq!(desk.message(D, control(b'C', D)), (0, 1 | 4 | 16));
        assert_eq!(desk.odd_bid(), entry("P", TEN + CENT, 4));
        assert_eq!(desk.message(D, control(b'O', D)), (0, 1 | 4 | 16));
        assert_eq!(seen_of(desk, "D", "ZT"), [true, false]);
    });
}

#[test]
fn finra_close_and_open_in_every_symbol() {
    each_desk(|desk| {
        for symbol in ["ZT", "YY"] {
            let best = with(quote(&round(N, BID, OFFER)), 20, &build::symbol(symbol));
            assert_eq!(desk.message(N, best), (0, 1 | 2));
        }
        assert_eq!(desk.message(D, of_d()), (0, 0));
        assert_eq!(desk.message(D, in_yy(of_d())), (0, 0));
        let bid = maker("AA", (TEN - CENT, 1), NOTHING);
        let offer = maker("AA", NOTHING, (TEN + 4 * CENT, 1));
        assert_eq!(desk.message(D, in_yy(offer)), (0, 2 | 8 | 32));
        assert_eq!(desk.message(D, control(b'C', D)), (0, 2 | 8 | 32));
        assert_eq!(desk.message(D, control(b'O', D)), (0, 2 | 8 | 32));
        assert_eq!(desk.message(D, bid), (0, 1 | 4 | 16));
        for (message, seen) in [(b'C', false), (b'O', true)] {
            assert_eq!(desk.message(D, control(message, D)), (0, 63));
            assert_eq!(seen_of(desk, "D", "ZT"), [seen, false]);
            assert_eq!(seen_of(desk, "D", "YY"), [false, seen]);
            assert_eq!(desk.message(D, control(message, D)), (0, 0));
        }
    });
}

#[test]
fn hidden_levels_of_d_are_stored_and_cleared() {
    each_desk(|desk| {
        let of_d = |clear, bids: &[Shown]| finra_odd_lot(D, &odd(clear, bids, &[]));
        assert_eq!(desk.message(D, of_d(b' ', &four_bids())), (0, 0));
        let fifth = [(TEN + 5 * CENT, 1)];
        assert_eq!(desk.message(D, of_d(b' ', &fifth)), (64, 0));
        let changes = [(TEN + 4 * CENT, 0), (TEN + 3 * CENT, 7)];
        assert_eq!(desk.message(D, of_d(b' ', &changes)), (0, 0));
        let bid = maker("AA", BID, NOTHING);
        assert_eq!(desk.message(D, bid.clone()), (0, 1 | 4 | 16));
        assert_eq!(desk.odd_bid(), entry("D", TEN + 3 * CENT, 7));
        assert_eq!(desk.message(D, control(b'C', D)), (0, 1 | 4 | 16));
        assert_eq!(desk.message(D, of_d(b'B', &[])), (0, 0));
        assert_eq!(desk.message(D, control(b'O', D)), (0, 1 | 4));
        // Start of Day empties makers and levels.
        assert_eq!(desk.message(D, of_d(b' ', &fifth)), (0, 16));
        assert_eq!(desk.book.end_day(), 0);
        assert_eq!(desk.odd_bid(), entry("D", TEN + 5 * CENT, 1));
        assert_eq!(desk.book.start_day(), 0);
        assert_eq!(desk.message(D, of_d(b' ', &four_bids())), (0, 0));
        assert_eq!(desk.message(D, bid), (0, 1 | 4 | 16));
    });
}
