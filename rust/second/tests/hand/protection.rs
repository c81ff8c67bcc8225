//! Hand-written answers to "Is this price protected?" (T-06).

use crate::desk::*;
use second::build;
use second::Protected;

/// The answer no, after all 26 letters.
const NO: (bool, u8) = (false, 26);

fn yes(looked: u8) -> (bool, u8) {
    (true, looked)
}

#[test]
fn a_bid_at_or_above_the_price() {
    each_desk(|desk| {
        desk.code(N, quote(&round(N, (TEN, 3), NOTHING)));
        assert_eq!(desk.protected(b'B', TEN - 1), yes(14));
        assert_eq!(desk.protected(b'B', TEN), yes(14));
        assert_eq!(desk.protected(b'B', TEN + 1), NO);
        for price in [0, 1, TEN, u64::MAX] {
            assert_eq!(desk.protected(b'S', price), NO);
        }
    });
}

#[test]
fn an_offer_at_or_below_the_price() {
    each_desk(|desk| {
        desk.code(N, quote(&round(N, NOTHING, (TEN, 3))));
        assert_eq!(desk.protected(b'S', TEN - 1), NO);
        assert_eq!(desk.protected(b'S', TEN), yes(14));
        assert_eq!(desk.protected(b'S', TEN + 1), yes(14));
        assert_eq!(desk.protected(b'S', u64::MAX), yes(14));
        for price in [0, 1, TEN, u64::MAX] {
            assert_eq!(desk.protected(b'B', price), NO);
        }
    });
}

#[test]
fn the_first_letter_and_not_the_leader() {
    each_desk(|desk| {
        desk.code(A, quote(&round(A, (TEN, 1), (TEN + 9 * CENT, 1))));
        desk.code(
            N,
            quote(&round(N, (TEN + 2 * CENT, 5), (TEN + 8 * CENT, 5))),
        );
        desk.code(
            P,
            quote(&round(P, (TEN + 5 * CENT, 9), (TEN + 6 * CENT, 9))),
        );
        let asked =
            |side, cents: [u64; 4]| cents.map(|cent| desk.protected(side, TEN + cent * CENT));
        assert_eq!(asked(b'B', [0, 2, 5, 6]), [yes(1), yes(14), yes(16), NO]);
        assert_eq!(asked(b'S', [9, 8, 6, 5]), [yes(1), yes(14), yes(16), NO]);
    });
}

#[test]
fn positions() {
    each_desk(|desk| {
        // S, position 19, is looked at and has nothing.
        for (line, letter, position) in [(20, b'Z', 26), (21, b'T', 20), (22, b'R', 18)] {
            desk.quote_by(line, letter, (TEN, 1), (TEN + CENT, 1));
            assert_eq!(desk.protected(b'B', TEN), yes(position));
            assert_eq!(desk.protected(b'S', TEN + CENT), yes(position));
        }
        desk.code(D, maker("AA", (TEN, 1), (TEN + CENT, 1)));
        assert_eq!(desk.protected(b'B', TEN), yes(4));
        desk.quote_by(23, b'B', (TEN, 1), (TEN + CENT, 1));
        assert_eq!(desk.protected(b'B', TEN), yes(2));
        desk.code(A, quote(&round(A, (TEN, 1), (TEN + CENT, 1))));
        assert_eq!(desk.protected(b'B', TEN), yes(1));
    });
}

#[test]
fn d_stands_with_its_finra_best() {
    each_desk(|desk| {
        desk.code(D, maker("AA", (TEN, 1), NOTHING));
        desk.code(D, maker("BB", (TEN + CENT, 1), NOTHING));
        desk.code(D, maker("CC", (TEN + 2 * CENT, 0), (TEN + 3 * CENT, 1)));
        desk.code(N, quote(&round(N, (TEN + 2 * CENT, 1), NOTHING)));
        let asked =
            |desk: &Desk| [0, 1, 2, 3].map(|cents| desk.protected(b'B', TEN + cents * CENT));
        assert_eq!(asked(desk), [yes(4), yes(4), yes(14), NO]);
        assert_eq!(desk.protected(b'S', TEN + 3 * CENT), yes(4));
        // FINRA Close: no maker counts; Open: they do again.
        desk.code(D, control(b'C', D));
        assert_eq!(asked(desk), [yes(14), yes(14), yes(14), NO]);
        assert_eq!(desk.protected(b'S', u64::MAX), NO);
        desk.code(D, control(b'O', D));
        desk.code(D, maker("BB", NOTHING, NOTHING));
        assert_eq!(asked(desk), [yes(4), yes(14), yes(14), NO]);
    });
}

#[test]
fn a_price_of_0_is_a_price() {
    each_desk(|desk| {
        assert_eq!((desk.protected(b'B', 0), desk.protected(b'S', 0)), (NO, NO));
        desk.code(A, quote(&round(A, (TEN, 0), NOTHING)));
        desk.code(N, quote(&round(N, (1, 1), (1, 1))));
        assert_eq!(desk.protected(b'B', 0), yes(14));
        assert_eq!(
            (desk.protected(b'S', 0), desk.protected(b'S', 1)),
            (NO, yes(14))
        );
    });
}

#[test]
fn what_does_not_count_is_no_candidate() {
    each_desk(|desk| {
        // An indication, a condition that admits neither side, odd lots.
        desk.code(A, quote(&round(A, (TEN, 0), (TEN, 0))));
        let mut closing = round(N, (TEN, 1), (TEN, 1));
        closing.condition = b'C';
        desk.code(N, quote(&closing));
        desk.code(P, odd_lot(P, &odd(b' ', &[(TEN, 5)], &[(TEN, 5)])));
        for side in *b"BS" {
            assert_eq!(desk.protected(side, TEN), NO);
        }
        // E admits the offer, F the bid.
        closing.condition = b'E';
        desk.code(N, quote(&closing));
        assert_eq!(
            [b'B', b'S'].map(|side| desk.protected(side, TEN)),
            [NO, yes(14)]
        );
        closing.condition = b'F';
        desk.code(N, quote(&closing));
        assert_eq!(
            [b'B', b'S'].map(|side| desk.protected(side, TEN)),
            [yes(14), NO]
        );
    });
}

#[test]
fn symbols_keep_apart_and_days_too() {
    each_desk(|desk| {
        desk.code(N, quote(&round(N, (TEN, 3), NOTHING)));
        let other = desk.book.is_protected(&build::symbol("YY"), b'B', TEN);
        let no = Protected {
            number: 0,
            yes: false,
            looked: 26,
        };
        assert_eq!(other, no);
        // End keeps the quotes, and a query needs no open day; Start empties them.
        assert_eq!(desk.book.end_day(), 0);
        assert_eq!(desk.protected(b'B', TEN), yes(14));
        assert_eq!(desk.book.start_day(), 0);
        assert_eq!(desk.protected(b'B', 0), NO);
    });
}

#[test]
fn checks_10_then_74() {
    each_desk(|desk| {
        desk.code(N, quote(&round(N, (TEN, 3), NOTHING)));
        let zt = build::symbol("ZT");
        let asked = |symbol: &[u8], side| desk.book.is_protected(symbol, side, 0);
        let symbols: [&[u8]; 5] = [b"", b"ZT", b"zt         ", b"ZT          ", b"XX         "];
        for symbol in symbols {
            for side in *b"BSX" {
                assert_eq!(asked(symbol, side), Protected::refused(10));
            }
        }
        for side in (0..=255).filter(|side| !b"BS".contains(side)) {
            assert_eq!(asked(&zt, side), Protected::refused(74));
        }
        assert_eq!((asked(&zt, b'B').number, asked(&zt, b'S').number), (0, 0));
    });
}
