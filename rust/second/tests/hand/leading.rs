//! Hand-written cases of T-08: "The third byte of a national entry becomes P, S, T or L by the
//! comparison with the second best, or a space if there is no second. A change of this byte alone
//! sets the change flag."

use crate::desk::*;
use second::build::{self, Shown};

/// Q K at a time.
fn quote_at(line: u32, time: u64, bid: Shown, offer: Shown) -> Vec<u8> {
    let mut round = round(line, bid, offer);
    round.time = time;
    quote(&round)
}

/// Q U at a time.
fn maker_at(name: &str, time: u64, bid: Shown, offer: Shown) -> Vec<u8> {
    let mut round = round(D, bid, offer);
    round.time = time;
    build::maker_quote(&round, build::maker(name))
}

/// The names of the national bid and offer, all four bytes.
fn names(desk: &Desk) -> [String; 2] {
    let publication = desk.publication("ZT");
    [0, 16].map(|at| String::from_utf8_lossy(&publication[at..at + 4]).to_string())
}

#[test]
fn each_reason_on_each_side() {
    each_desk(|desk| {
        let mut send = |line, time, bid, offer, flags, seen: [&str; 2]| {
            assert_eq!(
                desk.message(line, quote_at(line, time, bid, offer)),
                (0, flags)
            );
            assert_eq!(names(desk), seen);
        };
        let offer = TEN + 9 * CENT;
        send(N, 7, (TEN, 3), (offer, 3), 3, ["NR  ", "NR  "]);
        send(P, 6, (TEN - 1, 9), (offer, 2), 3, ["NRP ", "NRS "]);
        send(P, 8, (TEN, 2), (offer, 3), 3, ["NRS ", "NRT "]);
        send(P, 9, (TEN, 3), (offer + 1, 9), 3, ["NRT ", "NRP "]);
        send(P, 7, (TEN, 2), (offer, 3), 3, ["NRS ", "NRL "]);
        send(P, 7, (TEN, 3), (offer, 3), 1, ["NRL ", "NRL "]);
        send(P, 7, NOTHING, (offer, 3), 1, ["NR  ", "NRL "]);
        send(P, 7, NOTHING, NOTHING, 2, ["NR  ", "NR  "]);
        // The leader leaves too: none is four spaces.
        send(N, 7, NOTHING, NOTHING, 3, ["    ", "    "]);
    });
}

#[test]
fn new_leaders() {
    each_desk(|desk| {
        let mut send = |line, time, bid, name| {
            assert_eq!(
                desk.message(line, quote_at(line, time, bid, NOTHING)),
                (0, 1)
            );
            assert_eq!(names(desk)[0], name);
        };
        send(P, 9, (TEN, 1), "PR  ");
        send(N, 9, (TEN + 1, 1), "NRP ");
        send(P, 9, (TEN + 1, 2), "PRS ");
        send(N, 8, (TEN + 1, 2), "NRT ");
        send(P, 9, (TEN + 1, 1), "NRS ");
        send(P, 8, (TEN + 1, 2), "NRL ");
        send(A, 8, (TEN + 1, 2), "ARL ");
        send(A, 8, (TEN, 2), "NRL ");
    });
}

#[test]
fn the_second_and_not_the_third() {
    each_desk(|desk| {
        // A leads N by time; P, far behind, is third, then N is.
        desk.code(A, quote_at(A, 5, (TEN, 3), NOTHING));
        desk.code(N, quote_at(N, 6, (TEN, 3), NOTHING));
        assert_eq!(names(desk)[0], "ART ");
        let behind = quote_at(P, 4, (TEN - CENT, 9), NOTHING);
        assert_eq!(desk.message(P, behind), (0, 0));
        assert_eq!(names(desk)[0], "ART ");
        let first = quote_at(N, 4, (TEN - 2 * CENT, 9), NOTHING);
        assert_eq!(desk.message(N, first), (0, 1));
        assert_eq!(names(desk)[0], "ARP ");
        assert_eq!(desk.message(P, quote_at(P, 6, (TEN, 3), NOTHING)), (0, 1));
        assert_eq!(names(desk)[0], "ART ");
        // The third leaves, and nothing changes; the second leaves, and the third is the second.
        assert_eq!(desk.message(N, quote_at(N, 4, NOTHING, NOTHING)), (0, 0));
        desk.code(N, quote_at(N, 4, (TEN, 2), NOTHING));
        assert_eq!(names(desk)[0], "ART ");
        assert_eq!(desk.message(P, quote_at(P, 6, NOTHING, NOTHING)), (0, 1));
        assert_eq!(names(desk)[0], "ARS ");
    });
}

#[test]
fn what_does_not_count_is_no_second() {
    each_desk(|desk| {
        desk.code(N, quote_at(N, 7, (TEN, 3), NOTHING));
        assert_eq!(desk.message(P, quote_at(P, 7, (TEN, 0), NOTHING)), (0, 0));
        for (condition, flags, name) in [
            (b'C', 0, "NR  "),
            (b'E', 0, "NR  "),
            (b'F', 1, "NRL "),
            (b'U', 1, "NR  "),
        ] {
            let closed = with(quote_at(P, 7, (TEN, 3), NOTHING), 31, &[condition]);
            assert_eq!(desk.message(P, closed), (0, flags));
            assert_eq!(names(desk)[0], name);
        }
        // Odd lots are in another race.
        let level = odd_lot(P, &odd(b' ', &[(TEN, 5)], &[]));
        assert_eq!(desk.message(P, level), (0, 0));
    });
}

#[test]
fn a_resent_quote_keeps_the_reason() {
    each_desk(|desk| {
        let bid = (TEN, 3);
        desk.code(N, quote_at(N, 5, bid, NOTHING));
        desk.code(P, quote_at(P, 6, bid, NOTHING));
        assert_eq!(names(desk)[0], "NRT ");
        for (line, time) in [(N, 9), (P, 4), (P, 5), (N, 6)] {
            assert_eq!(
                desk.message(line, quote_at(line, time, bid, NOTHING)),
                (0, 0)
            );
        }
        assert_eq!(names(desk)[0], "NRT ");
    });
}

#[test]
fn d_is_one_candidate() {
    each_desk(|desk| {
        let (bid, offer) = ((TEN, 3), (TEN + CENT, 3));
        desk.code(D, maker_at("AA", 7, bid, offer));
        assert_eq!(desk.message(D, maker_at("BB", 7, bid, offer)), (0, 0));
        assert_eq!(names(desk), ["DR  ", "DR  "]);
        assert_eq!(desk.message(N, quote_at(N, 8, bid, offer)), (0, 3));
        assert_eq!(names(desk), ["DRT ", "DRT "]);
        // FINRA entries show no reason.
        let entries = desk.entries("ZT");
        assert_eq!(entries[2], entry("AA", TEN, 3));
        assert_eq!(entries[3], entry("AA", TEN + CENT, 3));
        // The other maker is D's best of the bids.
        assert_eq!(desk.message(D, maker_at("AA", 7, (TEN, 2), offer)), (0, 4));
        assert_eq!(names(desk), ["DRT ", "DRT "]);
        let far = maker_at("BB", 7, (TEN, 1), offer);
        assert_eq!(desk.message(D, far), (0, 1 | 4));
        assert_eq!(names(desk), ["NRS ", "DRT "]);
        assert_eq!(desk.message(D, control(b'C', D)), (0, 15));
        assert_eq!(names(desk), ["NR  ", "NR  "]);
        assert_eq!(desk.message(D, control(b'O', D)), (0, 15));
        assert_eq!(names(desk), ["NRS ", "DRT "]);
    });
}

#[test]
fn days() {
    each_desk(|desk| {
        desk.code(N, quote_at(N, 5, (TEN, 3), NOTHING));
        desk.code(P, quote_at(P, 6, (TEN, 3), NOTHING));
        assert_eq!(desk.book.end_day(), 0);
        assert_eq!(names(desk)[0], "NRT ");
        assert_eq!(desk.book.start_day(), 0);
        assert_eq!(names(desk)[0], "    ");
        assert_eq!(desk.message(P, quote_at(P, 6, (TEN, 3), NOTHING)), (0, 1));
        assert_eq!(names(desk)[0], "PR  ");
    });
}
