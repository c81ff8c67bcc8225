//! Trading halts (T-10): who may halt a symbol, what is seen of it meanwhile, and what comes back.

use crate::desk::*;
use second::build;

const NOTHING_SHOWN: [(&str, u64, u32); 6] = [("", 0, 0); 6];

/// The six entries of a symbol: name, price, size.
fn check(desk: &Desk, symbol: &str, expected: [(&str, u64, u32); 6]) {
    let expected = expected.map(|(name, price, size)| entry(name, price, size));
    assert_eq!(desk.entries(symbol), expected, "{symbol}");
}

/// 10.00 for 3 and 10.02 for 2, by N.
fn plain() -> Vec<u8> {
    quote(&round(N, (TEN, 3), (TEN + 2 * CENT, 2)))
}

const PLAIN: [(&str, u64, u32); 6] = [
    ("NR", TEN, 3),
    ("NR", TEN + 2 * CENT, 2),
    ("", 0, 0),
    ("", 0, 0),
    ("", 0, 0),
    ("", 0, 0),
];

/// 40, 41, 42, 43, 45, 76, 77 in this order; none of these halts.
#[test]
fn codes_in_their_order() {
    each_desk(|desk| {
        assert_eq!(desk.message(N, plain()), (0, 3));
        let halt = status(N, "ZT", b'H');
        for (line, message, code) in [
            (N, with(halt.clone(), 0, b"TT"), 40),
            (N, with(halt.clone(), 0, b"SS"), 40),
            (N, with(status(P, "ZT", b'H'), 1, b"T"), 40),
            (N, status(P, "ZT", b'H'), 41),
            (N, [&status(P, "ZT", b'H')[..], b"\0"].concat(), 41),
            (N, [&halt[..], b"\0"].concat(), 42),
            (N, with(halt[..31].to_vec(), 3, b"\x01"), 42),
            (N, with(status(N, "QQ", b'x'), 3, b"\x01"), 43),
            (N, status(N, "QQ", b'x'), 45),
            (N, status(N, "zt", b'H'), 45),
            (P, status(P, "QQ", b'x'), 45),
            (P, status(P, "ZT", b'x'), 76),
            (P, status(P, "ZT", b'H'), 76),
            (D, status(D, "ZT", b'H'), 76),
            (N, status(N, "ZT", b'h'), 77),
            (N, status(N, "ZT", b't'), 77),
            (N, status(N, "ZT", 0), 77),
        ] {
            assert_eq!(
                desk.message(line, message.clone()),
                (code, 0),
                "{message:?}"
            );
        }
        check(desk, "ZT", PLAIN);
    });
}

/// "75 primary letter bad, after 6", before 4 and 5: not A to Z, or S. D may be primary.
#[test]
fn primary_letters() {
    each_desk(|desk| {
        let zz = build::symbol("ZZ");
        for primary in (0..=255).filter(|&byte: &u8| !byte.is_ascii_uppercase() || byte == b'S') {
            assert_eq!(desk.book.add_symbol(&zz, 100, primary), 75);
            assert_eq!(desk.book.add_symbol(&zz, 7, primary), 6);
            assert_eq!(desk.book.add_symbol(b"zz         ", 7, primary), 3);
            assert_eq!(desk.book.add_symbol(&build::symbol("ZT"), 100, primary), 75);
        }
        assert_eq!(desk.book.add_symbol(&zz, 100, b'D'), 0);
        assert_eq!(desk.book.add_symbol(&build::symbol("ZA"), 100, b'A'), 0);
        assert_eq!(desk.book.add_symbol(&build::symbol("ZB"), 100, b'S'), 75);
        assert_eq!(desk.book.add_symbol(&build::symbol("ZB"), 100, b'N'), 5);
        assert_eq!(desk.message(D, status(D, "ZZ", b'H')), (0, 0));
        assert_eq!(desk.code(N, status(N, "ZZ", b'H')), 76);
        assert_eq!(desk.code(A, status(A, "ZA", b'T')), 0);
    });
}

/// All six entries go and come back, with their flags; a symbol's halt is its own.
#[test]
fn six_entries() {
    each_desk(|desk| {
        assert_eq!(desk.message(N, plain()), (0, 3));
        let maker = maker("MM", (TEN - CENT, 1), (TEN + 3 * CENT, 4));
        assert_eq!(desk.message(D, maker), (0, 15));
        let odd = odd(b' ', &[(TEN + CENT, 5)], &[(TEN + CENT, 6)]);
        assert_eq!(desk.message(P, odd_lot(P, &odd)), (0, 48));
        let mut of_yy = round(N, (TEN, 3), (TEN + 2 * CENT, 2));
        of_yy.symbol = build::symbol("YY");
        assert_eq!(desk.message(N, quote(&of_yy)), (0, 3));
        let shown = desk.entries("ZT");
        assert_eq!(desk.message(N, status(N, "ZT", b'H')), (0, 63));
        check(desk, "ZT", NOTHING_SHOWN);
        check(desk, "YY", PLAIN);
        assert_eq!(desk.message(P, status(P, "YY", b'H')), (0, 3));
        check(desk, "YY", NOTHING_SHOWN);
        assert_eq!(desk.message(N, status(N, "ZT", b'T')), (0, 63));
        assert_eq!(desk.entries("ZT"), shown);
        check(desk, "YY", NOTHING_SHOWN);
    });
}

/// A status that changes nothing is accepted with flags 0. The last one counts by its place, whatever
/// its time.
#[test]
fn the_last_status() {
    each_desk(|desk| {
        let at = |time: u64, halts: u8| with(status(N, "ZT", halts), 4, &time.to_be_bytes());
        assert_eq!(desk.message(N, at(9, b'T')), (0, 0));
        assert_eq!(desk.message(N, at(9, b'H')), (0, 0));
        assert_eq!(desk.message(N, at(9, b'H')), (0, 0));
        assert_eq!(desk.message(N, plain()), (0, 0));
        assert_eq!(desk.message(N, at(8, b'T')), (0, 3));
        assert_eq!(desk.message(N, at(7, b'H')), (0, 3));
        assert_eq!(desk.message(N, at(u64::MAX, b'T')), (0, 3));
        assert_eq!(desk.message(N, at(0, b'H')), (0, 3));
        check(desk, "ZT", NOTHING_SHOWN);
    });
}

/// A status stands among quotes, and a quote behind a halt in its own block sets no flag.
#[test]
fn among_quotes() {
    each_desk(|desk| {
        let more = |lots| quote(&round(N, (TEN, lots), (TEN + 2 * CENT, 2)));
        let messages = [
            more(3),
            status(N, "ZT", b'H'),
            more(4),
            status(N, "ZT", b'T'),
            more(5),
        ];
        let (report, answers) = desk.send(N, &messages);
        assert_eq!((report.number, report.accepted), (0, 5));
        let flags: Vec<u8> = answers.iter().map(|answer| answer[2]).collect();
        assert_eq!(flags, [3, 3, 0, 3, 1]);
        assert_eq!(desk.record(N), (6, 5));
        assert_eq!(desk.national_bid(), entry("NR", TEN, 5));
    });
}

/// Every check and store is as ever while a symbol is halted: 46, 49, 64, a partly accepted Q K, freed
/// cells.
#[test]
fn quotes_are_stored() {
    each_desk(|desk| {
        assert_eq!(desk.message(N, status(N, "ZT", b'H')), (0, 0));
        let four = odd(b' ', &four_bids(), &[]);
        assert_eq!(desk.message(N, odd_lot(N, &four)), (0, 0));
        let fifth = odd(b' ', &[(TEN + 9 * CENT, 1)], &[]);
        assert_eq!(desk.code(N, odd_lot(N, &fifth)), 64);
        let round = round(N, (TEN, 3), (TEN + 2 * CENT, 2));
        assert_eq!(desk.message(N, build::round_lot(&round, &fifth)), (64, 0));
        assert_eq!(desk.code(N, with(quote(&round), 31, b"L")), 46);
        for name in 0..16 {
            let name = format!("M{}", char::from(b'A' + name));
            assert_eq!(desk.message(D, maker(&name, (TEN, 1), NOTHING)), (0, 0));
        }
        assert_eq!(desk.code(D, maker("MX", (TEN, 1), NOTHING)), 49);
        assert_eq!(desk.message(D, maker("MA", NOTHING, NOTHING)), (0, 0));
        assert_eq!(desk.message(D, maker("MX", (TEN, 9), NOTHING)), (0, 0));
        check(desk, "ZT", NOTHING_SHOWN);
        assert_eq!(desk.message(N, status(N, "ZT", b'T')), (0, 1 + 2 + 4 + 16));
        check(
            desk,
            "ZT",
            [
                ("DRS", TEN, 9),
                ("NR", TEN + 2 * CENT, 2),
                ("MX", TEN, 9),
                ("", 0, 0),
                ("N", TEN + 4 * CENT, 1),
                ("", 0, 0),
            ],
        );
    });
}

/// FINRA Close and Open go to halted symbols too, and report the changes of others.
#[test]
fn close_and_open() {
    each_desk(|desk| {
        assert_eq!(desk.message(D, maker("MM", (TEN, 3), NOTHING)), (0, 5));
        let of_yy = with(maker("MM", NOTHING, (TEN, 3)), 20, b"YY");
        assert_eq!(desk.message(D, of_yy), (0, 10));
        assert_eq!(desk.message(N, status(N, "ZT", b'H')), (0, 5));
        assert_eq!(desk.message(D, control(b'C', D)), (0, 10));
        assert_eq!(desk.message(N, status(N, "ZT", b'T')), (0, 0));
        assert_eq!(desk.message(N, status(N, "ZT", b'H')), (0, 0));
        assert_eq!(desk.message(D, control(b'O', D)), (0, 10));
        assert_eq!(desk.message(N, status(N, "ZT", b'T')), (0, 5));
    });
}

/// T-02's run goes on through a halt: a resent bid keeps its time, one that grew does not.
#[test]
fn runs_go_on() {
    each_desk(|desk| {
        let at = |line, time: u64, lots| {
            let mut round = round(line, (TEN, lots), (TEN + 2 * CENT, 2));
            round.time = time;
            quote(&round)
        };
        assert_eq!(desk.message(N, at(N, 5, 3)), (0, 3));
        assert_eq!(desk.message(P, at(P, 6, 3)), (0, 3));
        assert_eq!(desk.message(N, status(N, "ZT", b'H')), (0, 3));
        assert_eq!(desk.message(N, at(N, 9, 3)), (0, 0));
        assert_eq!(desk.message(N, status(N, "ZT", b'T')), (0, 3));
        assert_eq!(desk.national_bid(), entry("NRT", TEN, 3));
        assert_eq!(desk.message(N, status(N, "ZT", b'H')), (0, 3));
        assert_eq!(desk.message(N, at(N, 9, 4)), (0, 0));
        assert_eq!(desk.message(N, at(N, 10, 3)), (0, 0));
        assert_eq!(desk.message(N, status(N, "ZT", b'T')), (0, 3));
        assert_eq!(desk.national_bid(), entry("PRT", TEN, 3));
        assert_eq!(desk.national_offer(), entry("NRT", TEN + 2 * CENT, 2));
    });
}

/// Trading brings back what then stands: the second best that came in the halt (T-08), and odd lots by
/// the closing quote, and then the open one, that came in it (T-07).
#[test]
fn what_then_stands() {
    each_desk(|desk| {
        let inside = odd(b' ', &[(TEN + CENT, 5)], &[(TEN + CENT, 6)]);
        let by = |line| round(line, (TEN, 3), (TEN + 2 * CENT, 2));
        let (round, mut other) = (by(N), by(P));
        assert_eq!(desk.message(N, build::round_lot(&round, &inside)), (0, 51));
        let shown = desk.entries("ZT");
        let closing = with(quote(&round), 31, b"C");
        for (message, flags) in [(closing, 0), (quote(&round), 51)] {
            assert_eq!(desk.message(N, status(N, "ZT", b'H')).0, 0);
            assert_eq!(desk.message(N, message), (0, 0));
            assert_eq!(desk.message(N, status(N, "ZT", b'T')), (0, flags));
        }
        assert_eq!(desk.entries("ZT"), shown);
        assert_eq!(desk.message(N, status(N, "ZT", b'H')), (0, 51));
        other.time += 1;
        assert_eq!(desk.message(P, quote(&other)), (0, 0));
        assert_eq!(desk.message(N, status(N, "ZT", b'T')), (0, 51));
        assert_eq!(desk.national_bid(), entry("NRT", TEN, 3));
    });
}

/// D's odd lots (T-05) come back by its FINRA best: a maker quotes in a halt, FINRA Close comes in the
/// next.
#[test]
fn finra_odd_lots() {
    each_desk(|desk| {
        let inside = odd(b' ', &[(TEN + CENT, 5)], &[(TEN + CENT, 6)]);
        let quoted = maker("MM", (TEN, 3), (TEN + 2 * CENT, 2));
        assert_eq!(desk.message(N, status(N, "ZT", b'H')), (0, 0));
        assert_eq!(desk.message(D, finra_odd_lot(D, &inside)), (0, 0));
        assert_eq!(desk.message(D, quoted), (0, 0));
        assert_eq!(desk.message(N, status(N, "ZT", b'T')), (0, 63));
        assert_eq!(desk.message(N, status(N, "ZT", b'H')), (0, 63));
        assert_eq!(desk.message(D, control(b'C', D)), (0, 0));
        assert_eq!(desk.message(N, status(N, "ZT", b'T')), (0, 0));
        check(desk, "ZT", NOTHING_SHOWN);
    });
}

/// End of Day keeps a halt, Start of Day ends it, and a symbol added meanwhile trades.
#[test]
fn days() {
    each_desk(|desk| {
        assert_eq!(desk.message(N, plain()), (0, 3));
        assert_eq!(desk.message(N, status(N, "ZT", b'H')), (0, 3));
        assert_eq!(desk.book.add_symbol(&build::symbol("XX"), 100, b'N'), 0);
        let of_xx = with(plain(), 20, b"XX");
        assert_eq!(desk.message(N, of_xx), (0, 3));
        assert_eq!(desk.book.end_day(), 0);
        check(desk, "ZT", NOTHING_SHOWN);
        assert_eq!(desk.protected(b'B', 0), (false, 26));
        assert_eq!(desk.book.start_day(), 0);
        check(desk, "ZT", NOTHING_SHOWN);
        assert_eq!(desk.message(N, plain()), (0, 3));
        check(desk, "ZT", PLAIN);
        assert_eq!(desk.book.end_day(), 0);
        let (report, _) = desk.send(N, &[status(N, "ZT", b'H')]);
        assert_eq!(report.number, 20);
    });
}

/// "T-06 says no with 26", behind 10 and 74.
#[test]
fn queries() {
    each_desk(|desk| {
        assert_eq!(desk.message(N, plain()), (0, 3));
        assert_eq!(desk.protected(b'B', TEN), (true, 14));
        assert_eq!(desk.message(N, status(N, "ZT", b'H')), (0, 3));
        for (side, price) in [
            (b'B', TEN),
            (b'B', 0),
            (b'S', TEN + 2 * CENT),
            (b'S', u64::MAX),
        ] {
            assert_eq!(desk.protected(side, price), (false, 26));
        }
        let number = |symbol: &str, side| {
            let symbol = build::symbol(symbol);
            desk.book.is_protected(&symbol, side, TEN).number
        };
        assert_eq!(number("QQ", b'B'), 10);
        assert_eq!(number("ZT", b'X'), 74);
        assert_eq!(desk.message(N, status(N, "ZT", b'T')), (0, 3));
        assert_eq!(desk.protected(b'B', TEN), (true, 14));
        assert_eq!(desk.protected(b'S', TEN + 2 * CENT), (true, 14));
    });
}
