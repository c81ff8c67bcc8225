//! T-09: two machines with equal books receive the same lines, but the lines meet in another order.
//! The books are used ones, some of them damaged, or no books at all; blocks of any bytes, refused ones
//! and short answer buffers are among those that are mixed. At the end every byte of the two books is
//! the same, and each line was told the same but for change flags.

mod support;

use std::collections::BTreeSet;

use second::generate::{self, Random};
use second::mixing::{compare, has_used_up, make_calls, run, Shown, Streams, ToldByLine};
use second::{build, QuoteBook};
use support::damage::damage;
use support::foretold::NUMBERS;
use support::guarded::Guarded;
use support::layout::{in_page, is_book, is_letter, line, LINES, N, OPENING_LEN, SYMBOL};

const MIXED: u64 = 1_500;
/// The calls of a list that use a book before its lines are mixed, and those that the blocks are
/// taken from.
const USING: usize = 60;
const AFTER: usize = 80;
/// Every code of a message.
const CODES: [u8; 18] = [
    0, 40, 41, 42, 43, 44, 45, 46, 47, 48, 49, 60, 61, 62, 63, 64, 76, 77,
];

#[test]
fn any_two_mixings() {
    let mut reached = Reached::default();
    println!("{MIXED} books from seed 0 on");
    for seed in 0..MIXED {
        let mut random = Random::new(seed);
        let (mut memory, streams) = used(seed);
        if random.percent(40) {
            damage(&mut random, &mut memory);
        }
        one_line_each(&mut memory);
        let mut books = [Guarded::over(&memory), Guarded::over(&memory)];
        let symbols = symbols(&memory);
        let [first, second] = books.each_mut().map(|book| {
            let told = run(book, &streams.mix(&mut random));
            (told, Shown::of(book, &symbols))
        });
        // T-14: if one mixing has no 86, none has; with 86 the mixings may differ.
        let used_up = has_used_up(&first.0);
        assert_eq!(used_up, has_used_up(&second.0), "seed {seed}: 86");
        if used_up {
            reached.note(&first.0, 0);
            continue;
        }
        let flags = compare(&first.0, &second.0);
        let flags = flags.unwrap_or_else(|what| panic!("seed {seed}: {what}"));
        assert_eq!(first.1, second.1, "seed {seed}");
        assert!(books[0].bytes() == books[1].bytes(), "seed {seed}: bytes");
        reached.note(&first.0, flags);
    }
    reached.check();
}

/// The numbers and codes that were told, and how many change flags differed.
#[derive(Default)]
struct Reached {
    numbers: BTreeSet<u8>,
    codes: BTreeSet<u8>,
    flags: usize,
    /// Books in which at least one differed.
    books: usize,
}

impl Reached {
    fn note(&mut self, told: &ToldByLine, flags: usize) {
        for told in told.values().flatten() {
            self.numbers.insert(told.report.number);
            self.codes.extend(told.messages().map(|message| message[1]));
        }
        self.flags += flags;
        self.books += usize::from(flags > 0);
    }

    fn check(&self) {
        let Reached { flags, books, .. } = self;
        println!("the flags of {flags} messages differ, in {books} books");
        assert!(*books > 100, "change flags may differ, and do not");
        let of_take = NUMBERS.iter().find(|(name, _)| *name == "take");
        let (_, numbers) = of_take.expect("the table has the block call");
        assert!(self.numbers.iter().eq(*numbers), "{:?}", self.numbers);
        assert!(self.codes.iter().eq(&CODES), "{:?}", self.codes);
    }
}

/// The bytes of a book that the first calls of a seed's list have used, and the blocks after them.
fn used(seed: u64) -> (Vec<u8>, Streams) {
    let mut list = generate::list(seed, USING + AFTER);
    let streams = Streams::of(&list.calls.split_off(USING));
    let mut book = Guarded::fresh(list.n);
    make_calls(&mut book, &list.calls);
    (book.bytes().to_vec(), streams)
}

/// Closes every line whose letter a line before it has.
fn one_line_each(memory: &mut [u8]) {
    if memory.len() < OPENING_LEN {
        return;
    }
    let mut seen = Vec::new();
    for at in 0..LINES {
        let letter = &mut memory[line(at).start];
        if seen.contains(letter) {
            *letter = 0;
        }
        if is_letter(*letter) {
            seen.push(*letter);
        }
    }
}

/// The symbols of a book's pages.
fn symbols(memory: &[u8]) -> Vec<Vec<u8>> {
    if !is_book(memory) {
        return Vec::new();
    }
    let pages = 0..usize::from(memory[N]);
    pages
        .map(|page| memory[in_page(page, SYMBOL)].to_vec())
        .collect()
}

/// A book with ZT, line 5 for N and line 6 for another letter, the day open.
fn begun(other: u8) -> Guarded {
    let mut book = Guarded::fresh(1);
    assert_eq!(book.add_symbol(&build::symbol("ZT"), 100, b'N'), 0);
    assert_eq!(book.open_line(5, b'N'), 0);
    assert_eq!(book.open_line(6, other), 0);
    assert_eq!(book.start_day(), 0);
    book
}

/// A block with one Q M of ZT: odd bids at these prices.
fn odd_bids(letter: u8, shares: u32, prices: &[u64]) -> Vec<u8> {
    let odd = build::Odd {
        clear: b' ',
        bids: prices.iter().map(|&price| (price, shares)).collect(),
        offers: Vec::new(),
    };
    build::block(1, &[build::odd_lot(letter, 8, build::symbol("ZT"), &odd)])
}

/// Code and flags of the message of each block, given in this order.
fn told<const BLOCKS: usize>(
    book: &mut Guarded,
    blocks: [(u32, &[u8]); BLOCKS],
) -> [(u8, u8); BLOCKS] {
    blocks.map(|(line, block)| {
        let mut answer = [0; 180];
        assert_eq!(book.take_block(line, block, &mut answer).number, 0);
        (answer[1], answer[2])
    })
}

/// N's odd lot leads only if it comes before P's larger one: its flags differ, and nothing else.
#[test]
fn flags_that_differ() {
    let (n, p) = (
        odd_bids(b'N', 5, &[9_000_000]),
        odd_bids(b'P', 6, &[9_000_000]),
    );
    let (mut first, mut second) = (begun(b'P'), begun(b'P'));
    assert_eq!(told(&mut first, [(5, &n), (6, &p)]), [(0, 16), (0, 16)]);
    assert_eq!(told(&mut second, [(6, &p), (5, &n)]), [(0, 16), (0, 0)]);
    assert!(first.bytes() == second.bytes());
}

/// N, the primary letter, halts ZT before or after P's odd lot; a status on P's line is 76 in any order.
#[test]
fn a_halt_that_meets_a_quote() {
    let status = |letter, sequence, status| {
        let message = build::trading_status(letter, 9, build::symbol("ZT"), status);
        build::block(sequence, &[message])
    };
    let (n, p) = (status(b'N', 1, b'H'), odd_bids(b'P', 6, &[9_000_000]));
    let other = status(b'P', 2, b'T');
    let (mut first, mut second) = (begun(b'P'), begun(b'P'));
    let told_first = told(&mut first, [(5, &n), (6, &p), (6, &other)]);
    assert_eq!(told_first, [(0, 0), (0, 0), (76, 0)]);
    let told_second = told(&mut second, [(6, &p), (6, &other), (5, &n)]);
    assert_eq!(told_second, [(0, 16), (76, 0), (0, 16)]);
    assert!(first.bytes() == second.bytes());
}

/// Two lines of one letter are not covered: the fifth price is refused on the line that brings it.
#[test]
fn two_lines_of_one_letter() {
    let four = odd_bids(b'N', 5, &[9_000_000, 9_001_000, 9_002_000, 9_003_000]);
    let fifth = odd_bids(b'N', 5, &[9_004_000]);
    let (mut first, mut second) = (begun(b'N'), begun(b'N'));
    let [_, (code, _)] = told(&mut first, [(5, &four), (6, &fifth)]);
    let [(other, _), _] = told(&mut second, [(6, &fifth), (5, &four)]);
    assert_eq!([code, other], [64, 0]);
    assert!(first.bytes() != second.bytes());
}
