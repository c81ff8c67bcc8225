//! The guards find what they are there for: a byte is written behind the library's back, and the next
//! call tells.

mod support;

use second::build::{self, Odd, Round};
use second::QuoteBook;
use support::guarded::{broken, Guarded};
use support::layout::{line, page, PAGE_LEN};
use support::writing::Lent;

/// Two symbols, N's line 5 and an open day.
fn book() -> Guarded {
    let mut book = Guarded::fresh(2);
    for symbol in ["ZT", "YY"] {
        assert_eq!(book.add_symbol(&build::symbol(symbol), 100, b'N'), 0);
    }
    assert_eq!((book.open_line(5, b'N'), book.start_day()), (0, 0));
    book
}

/// N quotes ZT.
fn take(book: &mut Guarded) -> u8 {
    let round = Round::regular(b'N', 7, "ZT", (10_000_000, 3), (10_020_000, 2));
    let block = build::block(1, &[build::round_lot(&round, &Odd::IDLE)]);
    book.take_block(5, &block, &mut [0; 180]).number
}

#[test]
fn nothing_planted() {
    let mut book = book();
    assert_eq!((take(&mut book), book.start_day()), (0, 11));
}

#[test]
fn a_byte_around_the_book() {
    let mut book = book();
    book.plant(book.bytes().len());
    assert_eq!(take(&mut book), broken::AROUND);
}

#[test]
fn a_byte_at_a_refused_call() {
    let mut book = book();
    book.plant(page(1).end - 1);
    assert_eq!(book.start_day(), broken::REFUSED);
}

#[test]
fn a_byte_of_a_page_that_no_message_names() {
    for at in [page(1).start, page(1).start + PAGE_LEN / 2, page(1).end - 1] {
        let mut book = book();
        book.plant(at);
        assert_eq!(take(&mut book), broken::BEYOND);
    }
}

#[test]
fn a_byte_of_another_line_or_of_the_symbol() {
    for at in [line(4).end - 1, line(5).start, line(6).start, page(0).start] {
        let mut book = book();
        book.plant(at);
        assert_eq!(take(&mut book), broken::BEYOND);
    }
}

#[test]
fn a_byte_at_a_query() {
    let mut book = book();
    let zt = build::symbol("ZT");
    assert_eq!(book.is_protected(&zt, b'B', 0).number, 0);
    book.plant(page(0).start + 12);
    assert_eq!(book.is_protected(&zt, b'B', 0).number, broken::BEYOND);
}

#[test]
fn a_byte_at_a_conversion() {
    let mut book = book();
    assert_eq!(book.convert_len(&[]).number, 78);
    book.plant(page(0).start + 12);
    assert_eq!(book.convert_len(&[]).number, broken::BEYOND);
    assert_eq!(book.convert(&[], &mut []).number, broken::BEYOND);
}

#[test]
fn a_byte_at_a_snapshot() {
    let mut book = book();
    let zt = build::symbol("ZT");
    assert_eq!(book.snapshot_len(&zt).number, 0);
    assert_eq!(book.snapshot(&zt, &mut [0; 2000]).number, 0);
    book.plant(page(0).start + 12);
    assert_eq!(book.snapshot_len(&zt).number, broken::BEYOND);
    assert_eq!(book.snapshot(&zt, &mut [0; 2000]).number, broken::BEYOND);
}

#[test]
fn a_byte_at_an_order() {
    let mut book = book();
    let zt = build::symbol("ZT");
    let order = |book: &Guarded| book.try_order(&zt, b'B', 1, &mut [0; 325]).number;
    assert_eq!(order(&book), 0);
    book.plant(page(0).start + 12);
    assert_eq!(order(&book), broken::BEYOND);
}

#[test]
fn a_byte_at_a_read() {
    let mut book = book();
    book.plant(page(0).start + 12);
    let read = book.read(&build::symbol("ZT"), &mut [0; 96]);
    assert_eq!(read, broken::BEYOND);
}

/// Writes a message of 20 bytes into an output, then plants a byte: what the guards tell.
fn written(room: usize, plant: impl FnOnce(&mut Lent)) -> Option<&'static str> {
    let output = vec![0xA5; room];
    let mut lent = Lent::new(&[7; 20], &[20], &output);
    let written = lent.write(1);
    assert_eq!(written.number, if room < 32 { 73 } else { 0 });
    plant(&mut lent);
    lent.broken(written)
}

#[test]
fn nothing_planted_at_the_writer() {
    for room in [0, 31, 32, 40] {
        assert_eq!(written(room, |_| ()), None);
    }
}

#[test]
fn a_byte_of_the_writers_arguments() {
    for room in [31, 32] {
        for at in [0, 19, 20] {
            let told = written(room, |lent| lent.guarded_messages.plant(at));
            assert_eq!(told, Some("a byte of or around the messages was written"));
        }
        for at in [0, 1] {
            let told = written(room, |lent| lent.guarded_lengths.plant(at));
            assert_eq!(told, Some("a number of or around the lengths was written"));
        }
    }
}

#[test]
fn a_byte_of_the_writers_output() {
    for room in [31, 40] {
        let told = written(room, |lent| lent.guarded_block.plant(room));
        assert_eq!(told, Some("a byte around the output was written"));
    }
    for (room, at) in [(31, 0), (31, 30), (40, 32), (40, 39)] {
        let told = written(room, |lent| lent.guarded_block.plant(at));
        let what = "a byte of the output was written that is not the block's";
        assert_eq!(told, Some(what));
    }
}
