//! A book's bytes are kept and taken up again, and the records of its lines are read.

use quotebook::message::{line_integrity, Header, RoundLotQuote};
use quotebook::{lent, write_block, Book, LineRecord, Number};

fn quote(letter: u8) -> Vec<u8> {
    let symbol = "ZT".parse().expect("a symbol");
    let price = "10.00".parse().expect("a price");
    RoundLotQuote::new(Header::new(letter, 7), symbol)
        .bid(price, 3)
        .to_bytes()
}

fn started() -> Book {
    let mut book = Book::new(2).expect("two symbols");
    book.add_symbol("ZT", 100, b'N').expect("a symbol");
    book.open_line(5, b'N').expect("a line");
    book.open_line(63, b'Z').expect("the last line");
    book.start_day().expect("a day");
    book
}

/// The record is what the block call reports, block by block.
#[test]
fn a_lines_record() {
    let mut book = started();
    let record = |expected, count| LineRecord {
        letter: b'N',
        expected,
        count,
    };
    assert_eq!(book.line(5), Some(record(1, 0)));
    for (sequence, messages) in [(1, 2), (3, 1), (9, 3), (u32::MAX / 2, 1), (u32::MAX - 1, 3)] {
        let block = write_block(sequence, vec![quote(b'N'); messages]).expect("a block");
        let report = book.take_block(5, &block).expect("a taken block").report;
        assert_eq!(book.line(5), Some(record(report.expected, report.count)));
    }
    assert_eq!(book.line(5), Some(record(1, 10)));
    let integrity = write_block(77, [line_integrity(Header::new(b'N', 7))]).expect("a block");
    book.take_block(5, &integrity).expect("a taken block");
    assert_eq!(book.line(5), Some(record(1, 10)));
    let refused = book.take_block(5, &[]).expect_err("no block");
    assert_eq!((refused.expected, refused.count), (1, 10));
}

#[test]
fn other_lines() {
    let book = started();
    let last = book.line(63).expect("an open line");
    assert_eq!((last.letter, last.expected, last.count), (b'Z', 1, 0));
    for line in [0, 4, 6, 62, 64, 65, 1000, u32::MAX] {
        assert_eq!(book.line(line), None, "line {line}");
    }
    assert_eq!(lent::line(&[], 5), None);
    assert_eq!(lent::line(&vec![b'N'; book.as_bytes().len()], 5), None);
}

/// A copy goes on as the book would have; other bytes are no book.
#[test]
fn bytes_taken_up_again() {
    let mut book = started();
    let block = write_block(1, [quote(b'N')]).expect("a block");
    book.take_block(5, &block).expect("a taken block");
    let mut copy = Book::from_bytes(book.as_bytes()).expect("a book");
    assert!(copy == book);
    let next = write_block(2, [quote(b'N')]).expect("a block");
    for either in [&mut book, &mut copy] {
        let taken = either.take_block(5, &next).expect("a taken block");
        assert_eq!(taken.report.expected, 3);
    }
    assert!(copy == book);

    let bytes = book.as_bytes();
    for wrong in [vec![], bytes[1..].to_vec(), [bytes, &[0]].concat()] {
        let refused = Book::from_bytes(wrong).expect_err("no book");
        assert_eq!(refused.number, Number::NoBook);
    }
    for at in 0..15 {
        let mut wrong = bytes.to_vec();
        wrong[at] ^= 0x80;
        assert!(Book::from_bytes(wrong).is_err(), "byte {at}");
    }
}

/// The library is of the crate's version.
#[test]
fn version() {
    let number = lent::version();
    let text = format!(
        "{}.{}.{}",
        number / 10_000,
        number / 100 % 100,
        number % 100
    );
    assert_eq!(text, env!("CARGO_PKG_VERSION"));
}
