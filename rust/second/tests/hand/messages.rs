//! Hand-written codes of messages.

use crate::desk::*;
use crate::BOOKS;
use second::build::{self, Odd};

fn two_sided() -> Vec<u8> {
    quote(&round(N, (TEN, 3), (TEN + CENT, 2)))
}

#[test]
fn faults_of_a_round_lot_in_their_order() {
    each_desk(|desk| {
        let mut message = build::round_lot(&round(D, (0, 1), NOTHING), &Odd::IDLE);
        message[1] = b'k';
        message[3] = 1;
        message[20] = b'a';
        message[31] = b'L';
        message[56] = b'?';
        message.push(0);
        assert_eq!(desk.code(N, message.clone()), 40);
        message[1] = b'K';
        assert_eq!(desk.code(N, message.clone()), 41);
        message[2] = b'N';
        assert_eq!(desk.code(N, message.clone()), 42);
        message.pop();
        assert_eq!(desk.code(N, message.clone()), 43);
        message[3] = 0;
        assert_eq!(desk.code(D, with(message.clone(), 2, b"D")), 44);
        assert_eq!(desk.code(N, message.clone()), 45);
        message[20] = b'Z';
        assert_eq!(desk.code(N, message.clone()), 46);
        message[31] = b'R';
        assert_eq!(desk.code(N, message.clone()), 47);
        message[39] = 1;
        assert_eq!(desk.message(N, message.clone()), (60, 1));
        message[56] = b' ';
        assert_eq!(desk.message(N, message), (0, 0));
    });
}

#[test]
fn types_are_bytes() {
    each_desk(|desk| {
        for pair in [
            b"Qt", b"qk", b"Qk", b"KQ", b"C?", b"c5", b"C\x05", b"TT", b"\0\0",
        ] {
            assert_eq!(desk.code(N, with(two_sided(), 0, pair)), 40);
        }
        assert_eq!(desk.code(N, with(two_sided(), 0, b"QtD")), 40);
    });
}

#[test]
fn lengths_and_fixed_bytes() {
    each_desk(|desk| {
        let part = odd(b' ', &[(TEN, 1)], &[(TEN, 1)]);
        let message = build::round_lot(&round(N, NOTHING, NOTHING), &part);
        assert_eq!(message.len(), 84);
        assert_eq!(desk.code(N, with(message.clone(), 57, &[0])), 42);
        assert_eq!(desk.code(N, with(message.clone(), 57, &[2])), 42);
        assert_eq!(desk.code(N, with(message.clone(), 57, &[255, 255])), 42);
        assert_eq!(desk.code(N, with(message.clone(), 59, &[1])), 43);
        for len in [20, 31, 56, 57, 59, 60, 72, 83] {
            assert_eq!(desk.code(N, message[..len].to_vec()), 42);
        }
        let message = odd_lot(N, &part);
        assert_eq!(message.len(), 60);
        for at in [3, 34, 35] {
            assert_eq!(desk.code(N, with(message.clone(), at, &[1])), 43);
        }
        for len in [20, 32, 33, 35, 36, 48, 59] {
            assert_eq!(desk.code(N, message[..len].to_vec()), 42);
        }
        let message = maker("AAAA", (TEN, 1), NOTHING);
        assert_eq!(desk.code(D, with(message.clone(), 3, &[1])), 43);
        for len in [20, 56, 59] {
            assert_eq!(desk.code(D, message[..len].to_vec()), 42);
        }
        let test = build::test(b'N', 7);
        assert_eq!(test.len(), 115);
        for at in [3, 20, 114] {
            assert_eq!(desk.code(N, with(test.clone(), at, &[0x7F])), 43);
        }
        assert_eq!(desk.code(N, test[..114].to_vec()), 42);
        // The reference number is not read.
        assert_eq!(desk.code(N, with(two_sided(), 12, &[0xFF; 8])), 0);
    });
}

#[test]
fn lines_of_d_and_others() {
    each_desk(|desk| {
        assert_eq!(desk.code(N, control(b'C', D)), 41);
        assert_eq!(desk.code(N, control(b'C', N)), 44);
        assert_eq!(desk.code(N, control(b'O', N)), 44);
        assert_eq!(desk.code(D, quote(&round(D, NOTHING, NOTHING))), 44);
        assert_eq!(desk.code(D, odd_lot(D, &Odd::IDLE)), 44);
        let q_u = with(maker("AAAA", (TEN, 1), NOTHING), 2, b"N");
        assert_eq!(desk.code(N, q_u), 44);
        for message in [control(b'I', D), control(b'T', D), build::test(b'D', 7)] {
            assert_eq!(desk.code(D, message), 0);
        }
    });
}

#[test]
fn conditions() {
    each_desk(|desk| {
        for byte in 0..=255 {
            let (code, flags) = desk.message(N, with(two_sided(), 31, &[byte]));
            let admitted = match byte {
                b'A' | b'B' | b'H' | b'O' | b'R' | b'W' => Some(3),
                b'E' => Some(2),
                b'F' => Some(1),
                b'C' | b'N' | b'U' => Some(0),
                _ => None,
            };
            match admitted {
                Some(sides) => assert_eq!((code, flags), (0, sides)),
                None => assert_eq!((code, flags), (46, 0)),
            }
            desk.code(N, quote(&round(N, NOTHING, NOTHING)));
            let q_u = maker("AAAA", (TEN, 1), NOTHING);
            let code = desk.code(D, with(q_u, 31, &[byte]));
            let taken = matches!(byte, b'R' | b'L');
            assert_eq!(code, if taken { 0 } else { 46 });
        }
    });
}

#[test]
fn makers_names() {
    each_desk(|desk| {
        for name in ["A", "S", "D", "AZ", "ABC", "ZZZZ"] {
            assert_eq!(desk.code(D, maker(name, (TEN, 1), NOTHING)), 0);
        }
        for name in [" ", " A", "A B", "a", "A1", "AB.", "ABCa", "\0", "A\0"] {
            assert_eq!(desk.code(D, maker(name, (TEN, 1), NOTHING)), 48);
        }
        assert_eq!(desk.code(D, maker("a", (0, 1), NOTHING)), 47);
    });
}

/// Lets sixteen makers stand.
fn sixteen_makers(desk: &mut Desk) {
    for letter in b'A'..=b'P' {
        let name = String::from(letter as char);
        assert_eq!(desk.code(D, maker(&name, (TEN, 1), NOTHING)), 0);
    }
}

#[test]
fn a_seventeenth_maker() {
    each_desk(|desk| {
        assert_eq!(desk.message(D, maker("Q", NOTHING, NOTHING)), (0, 0));
        sixteen_makers(desk);
        assert_eq!(desk.code(D, maker("Q", (TEN, 1), NOTHING)), 49);
        // Its empty quote is accepted and changes no maker: it stays unknown (T-03).
        assert_eq!(desk.message(D, maker("Q", NOTHING, NOTHING)), (0, 0));
        assert_eq!(desk.code(D, maker("Q", (TEN, 1), NOTHING)), 49);
        assert_eq!(desk.code(D, maker("Q", (TEN, 0), NOTHING)), 49);
        assert_eq!(desk.code(D, maker("q", NOTHING, NOTHING)), 48);
        assert_eq!(desk.code(D, maker("B", (TEN + CENT, 1), NOTHING)), 0);
        // An indication keeps its cell, an empty quote frees it.
        assert_eq!(desk.code(D, maker("B", (TEN, 0), NOTHING)), 0);
        assert_eq!(desk.code(D, maker("Q", (TEN, 1), NOTHING)), 49);
        assert_eq!(desk.code(D, maker("B", NOTHING, NOTHING)), 0);
        assert_eq!(desk.code(D, maker("Q", (TEN + CENT, 1), NOTHING)), 0);
        assert_eq!(desk.finra_bid(), entry("Q", TEN + CENT, 1));
        assert_eq!(desk.code(D, maker("B", (TEN, 1), NOTHING)), 49);
        // The other symbol has its own sixteen.
        let other = with(maker("B", (TEN, 1), NOTHING), 20, &build::symbol("YY"));
        assert_eq!(desk.code(D, other), 0);
    });
}

#[test]
fn clear_marks() {
    each_desk(|desk| {
        for byte in 0..=255u8 {
            let code = desk.code(N, odd_lot(N, &odd(byte, &[], &[])));
            let is_mark = matches!(byte, 32 | 66 | 83 | 88);
            assert_eq!(code, if is_mark { 0 } else { 60 });
        }
    });
}

#[test]
fn faults_of_an_odd_part_in_their_order() {
    each_desk(|desk| {
        let mut code =
            |clear, bids: &[_], offers: &[_]| desk.code(N, odd_lot(N, &odd(clear, bids, offers)));
        let (fine, no_price, too_many) = ((TEN, 1), (0, 0), (TEN, 100));
        assert_eq!(code(b'?', &[no_price; 5], &[]), 60);
        assert_eq!(code(b' ', &[no_price; 5], &[too_many]), 61);
        assert_eq!(code(b' ', &[too_many], &[no_price; 5]), 61);
        // Item by item: the first faulty item decides, and 62 goes before 63 in one item.
        assert_eq!(code(b' ', &[fine, too_many], &[no_price]), 63);
        assert_eq!(code(b' ', &[fine, no_price], &[too_many]), 62);
        assert_eq!(code(b' ', &[(0, 100)], &[]), 62);
        assert_eq!(code(b' ', &four_bids(), &[]), 0);
        // Any fault goes before a fifth level.
        assert_eq!(code(b' ', &[fine], &[too_many]), 63);
        assert_eq!(code(b' ', &[fine], &[fine]), 64);
    });
}

#[test]
fn a_fifth_level_when_its_turn_comes() {
    each_desk(|desk| {
        let mut code =
            |clear, bids: &[_], offers: &[_]| desk.code(N, odd_lot(N, &odd(clear, bids, offers)));
        let (first, new) = (TEN + CENT, TEN + 9 * CENT);
        assert_eq!(code(b' ', &four_bids(), &[]), 0);
        assert_eq!(code(b' ', &[(new, 1), (first, 0)], &[]), 64);
        assert_eq!(code(b' ', &[(first, 5), (first, 6)], &[]), 0);
        assert_eq!(code(b' ', &[(new, 0)], &[(new, 1); 4]), 0);
        assert_eq!(code(b' ', &[(first, 0), (new, 1), (first, 0)], &[]), 0);
        assert_eq!(code(b' ', &[(first, 1)], &[]), 64);
        assert_eq!(code(b'S', &[(first, 1)], &[]), 64);
        assert_eq!(code(b'B', &[(first, 1)], &[]), 0);
    });
}

#[test]
fn round_lot_of_one_takes_removals_only() {
    for (name, fresh) in BOOKS {
        println!("{name}");
        let mut book = fresh(1);
        assert_eq!(book.add_symbol(&build::symbol("ZT"), 1, b'N'), 0);
        assert_eq!((book.open_line(N, b'N'), book.start_day()), (0, 0));
        let mut code = |sequence, shares| {
            let message = odd_lot(N, &odd(b' ', &[(TEN, shares)], &[]));
            let mut answer = [0; 180];
            book.take_block(N, &build::block(sequence, &[message]), &mut answer);
            answer[1]
        };
        assert_eq!((code(1, 0), code(2, 1)), (0, 63));
    }
}
