//! Hand-written answers of the operator's calls and of the line checks.

use crate::desk::*;
use crate::BOOKS;
use second::{build, Engine, Incremental, QuoteBook, Reviewer};

/// Runs a case on a fresh book of each kind.
fn each_fresh(n: u32, case: impl Fn(&mut dyn QuoteBook)) {
    for (name, fresh) in BOOKS {
        println!("{name}");
        case(fresh(n).as_mut());
    }
}

#[test]
fn fresh_books_have_1_to_64_symbols() {
    for n in [1, 2, 63, 64] {
        assert!(Engine::fresh(n).is_some());
        assert!(Incremental::fresh(n).is_some());
        assert!(Reviewer::fresh(n).is_some());
    }
    for n in [0, 65, 256 + 1, u32::MAX] {
        assert!(Engine::fresh(n).is_none());
        assert!(Incremental::fresh(n).is_none());
        assert!(Reviewer::fresh(n).is_none());
    }
}

#[test]
fn a_later_make_needs_the_same_n() {
    each_desk(|desk| {
        desk.code(N, quote(&round(N, (TEN, 3), NOTHING)));
        for n in [0, 1, 3, 5, 64, 65, 256 + 4, u32::MAX] {
            assert_eq!(desk.book.make(n), 2);
        }
        assert_eq!(desk.national_bid(), entry("NR", TEN, 3));
        assert_eq!(desk.book.make(4), 0);
        let mut publication = [0xEE; 96];
        assert_eq!(desk.book.read(&build::symbol("ZT"), &mut publication), 10);
        assert_eq!(publication, [0xEE; 96]);
        assert_eq!(desk.take(N, &[]).0.fields(), [21, 0, 0, 0, 0, 0, 0]);
        assert_eq!(desk.book.end_day(), 12);
    });
}

#[test]
fn add_checks_3_then_6_then_4_then_5() {
    each_fresh(1, |book| {
        let zt = build::symbol("ZT");
        assert_eq!(book.add_symbol(b"zt         ", 7, b'N'), 3);
        assert_eq!(book.add_symbol(&zt, 7, b'N'), 6);
        assert_eq!(book.add_symbol(&zt, 100, b'N'), 0);
        assert_eq!(book.add_symbol(&zt, 7, b'N'), 6);
        assert_eq!(book.add_symbol(&zt, 10, b'N'), 4);
        assert_eq!(book.add_symbol(&build::symbol("YY"), 7, b'N'), 6);
        assert_eq!(book.add_symbol(&build::symbol("YY"), 10, b'N'), 5);
    });
}

#[test]
fn round_lots() {
    each_fresh(64, |book| {
        for (letter, lot) in ["A", "B", "C", "D", "E"]
            .into_iter()
            .zip([1, 10, 25, 50, 100])
        {
            assert_eq!(book.add_symbol(&build::symbol(letter), lot, b'N'), 0);
        }
        for lot in [0, 2, 24, 99, 101, 256 + 100, u32::MAX] {
            assert_eq!(book.add_symbol(&build::symbol("F"), lot, b'N'), 6);
        }
    });
}

#[test]
fn symbols() {
    let right: [&[u8]; 4] = [
        b"A          ",
        b"S          ",
        b"Zaz.!~{}019",
        b"BRK.B      ",
    ];
    let wrong: [&[u8]; 11] = [
        b"",
        b"A",
        b"A         ",
        b"A           ",
        b"           ",
        b" A         ",
        b"a          ",
        b"1          ",
        b"A B        ",
        b"A\x7f         ",
        b"A         \x00",
    ];
    each_fresh(64, |book| {
        let mut publication = [0; 96];
        for symbol in right {
            assert_eq!(book.read(symbol, &mut publication), 10);
            assert_eq!(book.add_symbol(symbol, 100, b'N'), 0);
            assert_eq!(book.read(symbol, &mut publication), 0);
        }
        for symbol in wrong {
            assert_eq!(book.add_symbol(symbol, 100, b'N'), 3);
            assert_eq!(book.read(symbol, &mut publication), 10);
        }
    });
}

#[test]
fn sixty_four_symbols_keep_apart() {
    each_desk(|desk| {
        assert_eq!(desk.book.add_symbol(&build::symbol("A"), 100, b'N'), 0);
        assert_eq!(desk.book.add_symbol(&build::symbol("AA"), 100, b'N'), 0);
        assert_eq!(desk.book.add_symbol(&build::symbol("B"), 100, b'N'), 5);
    });
    each_fresh(64, |book| {
        let symbols: Vec<_> = (0..64).map(|i| build::symbol(&format!("A{i}"))).collect();
        assert!(symbols
            .iter()
            .all(|symbol| book.add_symbol(symbol, 100, b'N') == 0));
        assert_eq!(book.add_symbol(&build::symbol("A64"), 100, b'N'), 5);
        assert_eq!(book.add_symbol(&symbols[63], 100, b'N'), 4);
        assert_eq!((book.open_line(0, b'N'), book.start_day()), (0, 0));
        for (i, &symbol) in symbols.iter().enumerate() {
            let mut round = round(N, (TEN + i as u64, 1), NOTHING);
            round.symbol = symbol;
            let block = build::block(1 + i as u32, &[quote(&round)]);
            assert_eq!(book.take_block(0, &block, &mut [0; 180]).accepted, 1);
        }
        for (i, symbol) in symbols.iter().enumerate() {
            let mut publication = [0; 96];
            assert_eq!(book.read(symbol, &mut publication), 0);
            assert_eq!(publication[4..12], (TEN + i as u64).to_be_bytes());
        }
    });
}

#[test]
fn open_checks_7_then_8() {
    each_fresh(1, |book| {
        for letter in [b'S', b'@', b'[', b'n', b' ', 0, 255] {
            assert_eq!(book.open_line(0, letter), 7);
        }
        for line in [64, 65, 255, 256, 256 + 5, u32::MAX] {
            assert_eq!(book.open_line(line, b'N'), 7);
        }
        assert_eq!((book.open_line(0, b'N'), book.open_line(63, b'Z')), (0, 0));
        assert_eq!(book.open_line(0, b'S'), 7);
        assert_eq!(book.open_line(0, b'P'), 8);
    });
}

#[test]
fn two_lines_of_one_letter_write_one_quote() {
    each_desk(|desk| {
        assert_eq!(desk.book.open_line(50, b'N'), 0);
        desk.code(N, quote(&round(N, (TEN, 3), NOTHING)));
        assert_eq!(
            desk.message(50, quote(&round(N, (TEN, 2), NOTHING))),
            (0, 1)
        );
        assert_eq!(desk.national_bid(), entry("NR", TEN, 2));
        assert_eq!((desk.record(N), desk.record(50)), ((2, 1), (2, 1)));
    });
}

#[test]
fn days() {
    each_desk(|desk| {
        desk.code(N, quote(&round(N, (TEN, 3), NOTHING)));
        assert_eq!(desk.book.start_day(), 11);
        assert_eq!(desk.national_bid(), entry("NR", TEN, 3));
        assert_eq!(desk.book.end_day(), 0);
        assert_eq!(desk.book.end_day(), 12);
        assert_eq!(desk.national_bid(), entry("NR", TEN, 3));
        let (report, answers) = desk.send(N, &[quote(&round(N, NOTHING, NOTHING))]);
        assert_eq!(report.fields(), [20, 0, 2, 1, 0, 0, 0]);
        assert!(answers.is_empty());
        assert_eq!(desk.book.start_day(), 0);
        assert_eq!(desk.record(N), (1, 0));
        assert!(desk.entries("ZT").iter().all(|entry| *entry == none()));
    });
}

#[test]
fn start_of_day_empties_what_is_not_published() {
    each_desk(|desk| {
        desk.code(N, odd_lot(N, &odd(b' ', &four_bids(), &[])));
        desk.code(D, maker("AAAA", (TEN, 1), NOTHING));
        desk.code(D, control(b'C', D));
        assert_eq!((desk.book.end_day(), desk.book.start_day()), (0, 0));
        assert_eq!(desk.message(D, control(b'O', D)), (0, 0));
        let one = odd(b' ', &[(TEN, 1)], &[]);
        assert_eq!(desk.message(N, odd_lot(N, &one)), (0, 16));
        assert_eq!(desk.odd_bid(), entry("N", TEN, 1));
    });
}

#[test]
fn buffers_are_checked_first() {
    each_desk(|desk| {
        let block = build::block(1, &[quote(&round(N, (TEN, 3), NOTHING))]);
        for line in [N, 64, u32::MAX] {
            let report = desk.book.take_block(line, &block, &mut [0; 179]);
            assert_eq!(report.fields(), [9, 0, 0, 0, 0, 0, 0]);
        }
        for line in [0, 63, 64, 256 + N, u32::MAX] {
            let (report, _) = desk.take(line, &block);
            assert_eq!(report.fields(), [21, 0, 0, 0, 0, 0, 0]);
        }
        assert_eq!(desk.record(N), (1, 0));
        assert_eq!(desk.book.read(b"bad", &mut [0; 95]), 9);
        assert_eq!(desk.book.read(b"bad", &mut [0; 96]), 10);
        assert_eq!(desk.book.read(&build::symbol("XX"), &mut [0; 200]), 10);
    });
}
