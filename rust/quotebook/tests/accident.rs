//! The accident that the mission names, down to the bytes of the page: a Q K, Q M or Q T whose odd part
//! is refused, at its last item or for its fifth level. Its clear must not stay. The cases of `hand.rs`
//! run every code and clear mark; here is seen that no level's byte changes.

mod support;

use quotebook::{Book, Code};
use second::build::{self, Odd, Round};
use support::layout::{in_page, page, quote_key, slot, ENTRIES, LEVELS};

const TEN: u64 = 10_000_000;
const CENT: u64 = 10_000;

const N: u32 = 5;
const D: u32 = 7;

/// How an odd part alone is sent on a line: Q M, and by FINRA Q T.
type OddLot = fn(u8, u64, [u8; 11], &Odd) -> Vec<u8>;
const ODD_LOTS: [(u32, u8, OddLot); 2] =
    [(N, b'N', build::odd_lot), (D, b'D', build::finra_odd_lot)];

/// N and D each have four odd bids, from 10.01 to 10.04, and one odd offer.
fn book() -> Book {
    let mut book = Book::new(2).expect("two symbols");
    book.add_symbol("YY", 100, b'N').expect("a symbol");
    book.add_symbol("ZT", 100, b'N').expect("a symbol");
    for (line, letter, _) in ODD_LOTS {
        book.open_line(line, letter).expect("a line");
    }
    book.start_day().expect("a day");
    let standing = Odd {
        clear: b' ',
        bids: (1..=4).map(|cents| (TEN + cents * CENT, 1)).collect(),
        offers: vec![(TEN + 8 * CENT, 1)],
    };
    for (line, letter, odd_lot) in ODD_LOTS {
        let message = odd_lot(letter, 7, build::symbol("ZT"), &standing);
        assert_eq!(send(&mut book, line, 1, message), Code::Accepted);
    }
    book
}

fn send(book: &mut Book, line: u32, sequence: u32, message: Vec<u8>) -> Code {
    let block = build::block(sequence, &[message]);
    let taken = book.take_block(line, &block).expect("a taken block");
    let answer = taken.answers().next().expect("one answer");
    answer.code
}

/// Parts with a clear that each code refuses, the last item being at fault.
fn refused_parts() -> Vec<(Code, Odd)> {
    let fine = (TEN + 9 * CENT, 1);
    let part = |clear, bids: &[_], offers: &[_]| Odd {
        clear,
        bids: bids.to_vec(),
        offers: offers.to_vec(),
    };
    let mut parts = vec![(Code::FifthLevel, part(b'S', &[fine], &[fine]))];
    for clear in *b"BSX" {
        parts.extend([
            (Code::ItemCount, part(clear, &[fine; 5], &[])),
            (Code::ItemPrice, part(clear, &[fine], &[fine, (0, 1)])),
            (Code::ItemShares, part(clear, &[fine], &[fine, (TEN, 100)])),
        ]);
    }
    parts
}

#[test]
fn a_refused_odd_lot_quote_changes_no_byte_of_the_page() {
    for (code, part) in refused_parts() {
        for (line, letter, odd_lot) in ODD_LOTS {
            let mut book = book();
            let before = book.as_bytes()[page(1)].to_vec();
            let message = odd_lot(letter, 8, build::symbol("ZT"), &part);
            assert_eq!(send(&mut book, line, 2, message), code);
            assert_eq!(book.as_bytes()[page(1)], before);
        }
    }
}

#[test]
fn a_partly_accepted_quote_changes_its_quote_and_the_national_entries_alone() {
    for (code, part) in refused_parts() {
        let mut book = book();
        let before = book.clone();
        let round = Round::regular(b'N', 8, "ZT", (TEN, 3), (TEN + 20 * CENT, 2));
        let message = build::round_lot(&round, &part);
        assert_eq!(send(&mut book, N, 2, message), code);
        let n = usize::from(b'N' - b'A');
        let quote = slot(n).start..slot(n).start + LEVELS;
        let [bid, offer] = [0, 1].map(|side| quote_key(side, n));
        let national = ENTRIES.start..ENTRIES.start + 32;
        let mut expected = before.as_bytes()[page(1)].to_vec();
        for range in [quote, bid, offer, national] {
            expected[range.clone()].copy_from_slice(&book.as_bytes()[in_page(1, range)]);
        }
        assert_eq!(book.as_bytes()[page(1)], expected);
        let (before, after) = (before.read("ZT"), book.read("ZT"));
        let (before, after) = (before.expect("a symbol"), after.expect("a symbol"));
        assert_eq!(after.national_bid.map(|bid| bid.size), Some(3));
        assert_eq!(
            (after.odd_bid, after.odd_offer),
            (before.odd_bid, before.odd_offer)
        );
        assert_eq!(after.odd_bid.map(|bid| bid.price.0), Some(TEN + 4 * CENT));
    }
}
