//! Hand-written cases of T-02: "a round-lot side keeps the time it had if the new quote has the same
//! price and a size no larger".
//!
//! Times are seen by who leads. In each case a rival stands with the same price and size; it leads if
//! its time is earlier than the side's.

use crate::desk::*;
use second::build;

/// Q K at a time.
fn quote_at(line: u32, time: u64, bid: (u64, u32), offer: (u64, u32)) -> Vec<u8> {
    quote_under(b'R', line, time, bid, offer)
}

/// Q K at a time under a condition.
fn quote_under(condition: u8, line: u32, time: u64, bid: (u64, u32), offer: (u64, u32)) -> Vec<u8> {
    let mut round = round(line, bid, offer);
    round.time = time;
    round.condition = condition;
    quote(&round)
}

/// Q U at a time.
fn maker_at(name: &str, time: u64, bid: (u64, u32), offer: (u64, u32)) -> Vec<u8> {
    let mut round = round(D, bid, offer);
    round.time = time;
    build::maker_quote(&round, build::maker(name))
}

/// The letter that leads the bids after N sent these sizes at 10.00, each with its time, and then P
/// the last of them at time 20: N unless the time of its bid is later.
fn leader(desk: &mut Desk, sizes: &[(u64, u32)]) -> String {
    for &(time, size) in sizes {
        desk.code(N, quote_at(N, time, (TEN, size), NOTHING));
    }
    let (_, last) = sizes[sizes.len() - 1];
    desk.code(P, quote_at(P, 20, (TEN, last), NOTHING));
    desk.national_bid().0[..1].to_string()
}

#[test]
fn a_resent_quote_keeps_its_place() {
    each_desk(|desk| {
        let (bid, offer) = ((TEN, 3), (TEN + CENT, 2));
        assert_eq!(desk.message(N, quote_at(N, 5, bid, offer)), (0, 3));
        assert_eq!(desk.message(P, quote_at(P, 6, bid, offer)), (0, 3));
        // The leader stays, and nobody is told of a change.
        assert_eq!(desk.message(N, quote_at(N, 7, bid, offer)), (0, 0));
        assert_eq!(desk.message(P, quote_at(P, 4, bid, offer)), (0, 0));
        assert_eq!(desk.national_bid(), entry("NRT", TEN, 3));
        assert_eq!(desk.national_offer(), entry("NRT", TEN + CENT, 2));
    });
}

#[test]
fn sizes_from_one_quote_to_the_next() {
    // The same, smaller: the first one's time. Larger: its own.
    each_desk(|desk| assert_eq!(leader(desk, &[(10, 5), (30, 5), (31, 5)]), "N"));
    each_desk(|desk| assert_eq!(leader(desk, &[(10, 5), (30, 4), (31, 3)]), "N"));
    each_desk(|desk| assert_eq!(leader(desk, &[(10, 3), (30, 4)]), "P"));
    // 5, 3, 4 begins anew at 4, though 5 is larger.
    each_desk(|desk| assert_eq!(leader(desk, &[(10, 5), (11, 3), (30, 4)]), "P"));
    // A run that begins behind a larger size.
    each_desk(|desk| assert_eq!(leader(desk, &[(30, 3), (10, 4), (31, 4)]), "N"));
}

#[test]
fn a_time_that_goes_back() {
    // The first quote's of the run, not the smallest.
    each_desk(|desk| assert_eq!(leader(desk, &[(30, 5), (10, 5)]), "P"));
    each_desk(|desk| assert_eq!(leader(desk, &[(10, 5), (30, 5), (5, 5)]), "N"));
}

#[test]
fn an_indication_is_a_quote_of_the_run() {
    // 5 then 0 goes on, 0 then 5 rises.
    each_desk(|desk| assert_eq!(leader(desk, &[(10, 5), (11, 0), (30, 5)]), "P"));
    each_desk(|desk| assert_eq!(leader(desk, &[(30, 5), (11, 0), (10, 5)]), "N"));
    each_desk(|desk| assert_eq!(leader(desk, &[(30, 0), (10, 5), (31, 5)]), "N"));
}

#[test]
fn another_price_between() {
    each_desk(|desk| {
        desk.code(N, quote_at(N, 10, (TEN, 5), NOTHING));
        desk.code(N, quote_at(N, 11, (TEN - CENT, 5), NOTHING));
        assert_eq!(leader(desk, &[(30, 5)]), "P");
    });
    each_desk(|desk| {
        desk.code(N, quote_at(N, 10, (TEN, 5), NOTHING));
        desk.code(N, quote_at(N, 11, NOTHING, NOTHING));
        assert_eq!(leader(desk, &[(30, 5)]), "P");
    });
}

#[test]
fn the_condition_plays_no_part() {
    // Between two quotes of the run, and of its first one, under which nothing counts.
    each_desk(|desk| {
        desk.code(N, quote_at(N, 10, (TEN, 5), NOTHING));
        for condition in *b"CNUEFW" {
            desk.code(N, quote_under(condition, N, 30, (TEN, 5), NOTHING));
        }
        assert_eq!(leader(desk, &[(31, 5)]), "N");
    });
    each_desk(|desk| {
        desk.code(N, quote_under(b'C', N, 10, (TEN, 5), NOTHING));
        assert_eq!(leader(desk, &[(30, 5)]), "N");
    });
}

#[test]
fn each_side_has_its_own_time() {
    each_desk(|desk| {
        let (bid, offer) = ((TEN, 3), (TEN + CENT, 2));
        desk.code(N, quote_at(N, 10, bid, offer));
        // The offer moves to a larger size, the bid stays; then the bid moves, the offer stays.
        desk.code(N, quote_at(N, 30, bid, (TEN + CENT, 3)));
        desk.code(P, quote_at(P, 20, bid, (TEN + CENT, 3)));
        assert_eq!(desk.national_bid().0, "NRT");
        assert_eq!(desk.national_offer().0, "PRT");
        desk.code(P, quote_at(P, 31, (TEN, 4), (TEN + CENT, 3)));
        desk.code(N, quote_at(N, 29, (TEN, 4), (TEN + CENT, 3)));
        assert_eq!(desk.national_bid().0, "NRT");
        assert_eq!(desk.national_offer().0, "PRT");
    });
}

#[test]
fn a_part_that_is_not_taken_plays_no_part() {
    each_desk(|desk| {
        desk.code(N, quote_at(N, 10, (TEN, 5), NOTHING));
        // 47: rejected. 61: partly accepted, its round part is a quote of the run.
        assert_eq!(desk.code(N, quote_at(N, 11, (TEN, 9), (0, 1))), 47);
        assert_eq!(leader(desk, &[(30, 5)]), "N");
        let mut round = round(N, (TEN, 6), NOTHING);
        round.time = 31;
        let five = [(TEN + CENT, 1); 5];
        let partly = build::round_lot(&round, &odd(b' ', &five, &[]));
        assert_eq!(desk.code(N, partly), 61);
        desk.code(N, quote_at(N, 9, (TEN, 6), NOTHING));
        desk.code(P, quote_at(P, 30, (TEN, 6), NOTHING));
        assert_eq!(desk.national_bid().0, "PRT");
    });
}

#[test]
fn symbols_and_letters_have_runs_of_their_own() {
    each_desk(|desk| {
        let mut other = round(N, (TEN, 5), NOTHING);
        other.time = 10;
        other.symbol = build::symbol("YY");
        desk.code(N, quote(&other));
        desk.code(A, quote_at(A, 10, (TEN, 4), NOTHING));
        assert_eq!(leader(desk, &[(30, 5)]), "P");
    });
}

#[test]
fn start_of_day_forgets_times() {
    each_desk(|desk| {
        desk.code(N, quote_at(N, 10, (TEN, 5), NOTHING));
        desk.code(D, maker_at("AA", 10, NOTHING, (TEN, 5)));
        assert_eq!(desk.book.end_day(), 0);
        assert_eq!(desk.book.start_day(), 0);
        desk.code(D, maker_at("AA", 30, NOTHING, (TEN, 5)));
        desk.code(D, maker_at("BB", 20, NOTHING, (TEN, 5)));
        assert_eq!(desk.entries("ZT")[3].0, "BB");
        assert_eq!(leader(desk, &[(30, 5)]), "P");
    });
}

#[test]
fn makers_likewise() {
    each_desk(|desk| {
        let (bid, offer) = ((TEN, 3), (TEN + CENT, 2));
        desk.code(D, maker_at("BB", 10, bid, offer));
        desk.code(D, maker_at("AA", 20, bid, offer));
        // Resent: nothing changes. A larger bid and back: the bid's time alone is new.
        assert_eq!(desk.message(D, maker_at("BB", 30, bid, offer)), (0, 0));
        desk.code(D, maker_at("BB", 31, (TEN, 4), offer));
        desk.code(D, maker_at("BB", 32, bid, offer));
        let entries = desk.entries("ZT");
        assert_eq!(entries[2], entry("AA", TEN, 3));
        assert_eq!(entries[3], entry("BB", TEN + CENT, 2));
    });
}

#[test]
fn finra_close_and_open_between() {
    each_desk(|desk| {
        desk.code(D, maker_at("BB", 10, (TEN, 3), NOTHING));
        desk.code(D, maker_at("AA", 20, (TEN, 3), NOTHING));
        desk.code(D, control(b'C', D));
        desk.code(D, maker_at("BB", 30, (TEN, 3), NOTHING));
        assert_eq!(desk.finra_bid(), entry("BB", TEN, 3));
        desk.code(D, control(b'O', D));
        assert_eq!(desk.finra_bid(), entry("BB", TEN, 3));
        desk.code(D, maker_at("BB", 40, (TEN, 3), NOTHING));
        assert_eq!(desk.finra_bid(), entry("BB", TEN, 3));
    });
}

#[test]
fn a_freed_cell_forgets_its_times() {
    // The maker itself returns, and another maker takes its cell.
    for name in ["BB", "CC"] {
        each_desk(|desk| {
            desk.code(D, maker_at("BB", 10, (TEN, 3), NOTHING));
            desk.code(D, maker_at("DD", 20, (TEN, 3), NOTHING));
            desk.code(D, maker_at("BB", 21, NOTHING, NOTHING));
            desk.code(D, maker_at(name, 30, (TEN, 3), NOTHING));
            assert_eq!(desk.finra_bid(), entry("DD", TEN, 3));
        });
    }
    // A maker with one side left keeps its cell, and that side its time.
    each_desk(|desk| {
        desk.code(D, maker_at("BB", 10, (TEN, 3), (TEN + CENT, 2)));
        desk.code(D, maker_at("AA", 20, NOTHING, (TEN + CENT, 2)));
        desk.code(D, maker_at("BB", 30, NOTHING, (TEN + CENT, 2)));
        assert_eq!(desk.entries("ZT")[3], entry("BB", TEN + CENT, 2));
    });
}

#[test]
fn d_has_the_time_of_its_bests_side() {
    each_desk(|desk| {
        // AA leads the bids since 10, the offers since 30.
        desk.code(D, maker_at("AA", 10, (TEN, 3), (TEN + CENT, 2)));
        desk.code(D, maker_at("AA", 30, (TEN, 3), (TEN + CENT, 3)));
        desk.code(P, quote_at(P, 20, (TEN, 3), (TEN + CENT, 3)));
        assert_eq!(desk.national_bid(), entry("DRT", TEN, 3));
        assert_eq!(desk.national_offer(), entry("PRT", TEN + CENT, 3));
    });
}

#[test]
fn levels_take_each_messages_time() {
    each_desk(|desk| {
        let level = |line, time| {
            let mut message = odd_lot(line, &odd(b' ', &[(TEN, 5)], &[]));
            message[4..12].copy_from_slice(&u64::to_be_bytes(time));
            message
        };
        desk.code(N, level(N, 10));
        desk.code(P, level(P, 20));
        assert_eq!(desk.message(N, level(N, 30)), (0, 16));
        assert_eq!(desk.odd_bid(), entry("P", TEN, 5));
    });
}
