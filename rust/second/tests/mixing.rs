//! T-09 on the second implementation: the same blocks in two orders, on equal books. And wrong books
//! whose answers depend on the order are found by it.

mod common;

use common::BOOKS;
use second::compare::Fresh;
use second::engine::{mistake, Book, FollowLeader, Recompute};
use second::generate::{self, Random};
use second::mixing::{compare, has_used_up, make_calls, one_line_each, run};
use second::mixing::{Received, Shown, Streams, ToldByLine};
use second::{Call, Converted, Engine, Protected, QuoteBook, Report, SnapshotSize, Tried};

const LISTS: u64 = 400;
/// The calls that use a book before its blocks are mixed, and those that the blocks are taken from.
const USING: usize = 60;
const AFTER: usize = 80;

/// A book of n symbols, the calls that use it, the symbols that they add and two mixings.
struct Drawn {
    n: u32,
    using: Vec<Call>,
    symbols: Vec<Vec<u8>>,
    streams: Streams,
    random: Random,
}

impl Drawn {
    fn new(seed: u64) -> Drawn {
        let mut list = generate::list(seed, USING + AFTER);
        let streams = Streams::of(&list.calls.split_off(USING));
        let symbols = list.calls.iter().filter_map(|call| match call {
            Call::AddSymbol { symbol, .. } => Some(symbol.clone()),
            _ => None,
        });
        Drawn {
            n: list.n,
            symbols: symbols.collect(),
            using: list.calls,
            streams,
            random: Random::new(seed),
        }
    }

    /// How many change flags two mixings alter, or what else they do.
    fn mix(mut self, fresh: Fresh) -> Result<usize, String> {
        let first = self.streams.mix(&mut self.random);
        let second = self.streams.mix(&mut self.random);
        let (told, shown) = self.outcome(fresh, &first);
        let (other, shown_other) = self.outcome(fresh, &second);
        if has_used_up(&told) != has_used_up(&other) {
            return Err("86 in one of them alone".to_string());
        }
        if has_used_up(&told) {
            return Ok(0);
        }
        let flags = compare(&told, &other)?;
        if shown == shown_other {
            Ok(flags)
        } else {
            Err(format!("{shown:?}, then {shown_other:?}"))
        }
    }

    fn outcome(&self, fresh: Fresh, mixing: &[&Received]) -> (ToldByLine, Shown) {
        let mut book = fresh(self.n);
        make_calls(book.as_mut(), &self.using);
        let told = run(book.as_mut(), mixing);
        (told, Shown::of(book.as_mut(), &self.symbols))
    }
}

#[test]
fn any_two_mixings() {
    for (name, fresh) in BOOKS {
        let mut flags = 0;
        for seed in 0..LISTS {
            let mut drawn = Drawn::new(seed);
            drawn.using = one_line_each(&drawn.using);
            flags += drawn
                .mix(fresh)
                .unwrap_or_else(|what| panic!("seed {seed}, the {name}: {what}"));
        }
        println!("{name}: {LISTS} books, the flags of {flags} messages differ");
        assert_ne!(flags, 0, "change flags may differ, and never do");
    }
}

/// Without "each letter has at most one line" the sentence is false.
#[test]
fn two_lines_of_one_letter() {
    let differ = |&seed: &u64| Drawn::new(seed).mix(common::engine).is_err();
    let found = (0..20 * LISTS).find(differ);
    println!("seed {found:?} gives two mixings that differ");
    assert!(found.is_some());
}

fn mistaken<const M: u8>(n: u32) -> Box<dyn QuoteBook> {
    Box::new(Book::<Recompute, M>::fresh(n).expect("n is 1 to 64"))
}

fn mistaken_incremental<const M: u8>(n: u32) -> Box<dyn QuoteBook> {
    Box::new(Book::<FollowLeader, M>::fresh(n).expect("n is 1 to 64"))
}

/// What a book counts of all its lines together.
#[derive(Clone, Copy, PartialEq, Eq)]
enum Shared {
    /// A line's count is that of all lines.
    Count,
    /// Every tenth message that the book takes, whatever its line, is told the code 49.
    Code,
}

/// An engine that is right but for what it shares between its lines.
struct Sharing {
    shared: Shared,
    engine: Engine,
    messages: u64,
}

fn sharing(n: u32, shared: Shared) -> Box<dyn QuoteBook> {
    Box::new(Sharing {
        shared,
        engine: Engine::fresh(n).expect("n is 1 to 64"),
        messages: 0,
    })
}

fn sharing_count(n: u32) -> Box<dyn QuoteBook> {
    sharing(n, Shared::Count)
}

fn sharing_code(n: u32) -> Box<dyn QuoteBook> {
    sharing(n, Shared::Code)
}

impl QuoteBook for Sharing {
    fn make(&mut self, n: u32) -> u8 {
        self.engine.make(n)
    }

    fn add_symbol(&mut self, symbol: &[u8], round_lot: u32, primary: u8) -> u8 {
        self.engine.add_symbol(symbol, round_lot, primary)
    }

    fn open_line(&mut self, line: u32, letter: u8) -> u8 {
        self.engine.open_line(line, letter)
    }

    fn start_day(&mut self) -> u8 {
        self.engine.start_day()
    }

    fn end_day(&mut self) -> u8 {
        self.engine.end_day()
    }

    fn set_allowance(&mut self, blocks: u32, shares: &[u8]) -> u8 {
        self.engine.set_allowance(blocks, shares)
    }

    fn tick(&mut self) -> u8 {
        self.engine.tick()
    }

    fn take_block(&mut self, line: u32, block: &[u8], answer: &mut [u8]) -> Report {
        let mut report = self.engine.take_block(line, block, answer);
        let count = report.accepted + report.partly + report.rejected;
        for message in answer.chunks_exact_mut(4).take(count as usize) {
            self.messages += 1;
            if self.shared == Shared::Code && self.messages.is_multiple_of(10) {
                message[1] = 49;
            }
        }
        if self.shared == Shared::Count {
            report.count = self.messages;
        }
        report
    }

    fn read(&self, symbol: &[u8], publication: &mut [u8]) -> u8 {
        self.engine.read(symbol, publication)
    }

    fn is_protected(&self, symbol: &[u8], side: u8, price: u64) -> Protected {
        self.engine.is_protected(symbol, side, price)
    }

    fn convert_len(&self, block: &[u8]) -> Converted {
        self.engine.convert_len(block)
    }

    fn convert(&self, block: &[u8], output: &mut [u8]) -> Converted {
        self.engine.convert(block, output)
    }

    fn snapshot_len(&self, symbol: &[u8]) -> SnapshotSize {
        self.engine.snapshot_len(symbol)
    }

    fn snapshot(&self, symbol: &[u8], output: &mut [u8]) -> SnapshotSize {
        self.engine.snapshot(symbol, output)
    }

    fn try_order(&self, symbol: &[u8], side: u8, lots: u32, steps: &mut [u8]) -> Tried {
        self.engine.try_order(symbol, side, lots, steps)
    }
}

/// Books whose publications, records or codes depend on the order in which lines meet.
#[test]
fn books_that_go_by_the_order_are_found() {
    let wrong: [(&str, Fresh); 6] = [
        (
            "a leader that worsened stays",
            mistaken_incremental::<{ mistake::LEADER_STAYS }>,
        ),
        (
            "FINRA Close and Open in one page",
            mistaken::<{ mistake::CLOSE_IN_ONE_PAGE }>,
        ),
        (
            "a status taken on any line",
            mistaken::<{ mistake::STATUS_ANYWHERE }>,
        ),
        (
            "no quote stored in a halt",
            mistaken::<{ mistake::HALT_DROPS_QUOTES }>,
        ),
        ("one count for all lines", sharing_count),
        ("codes by the count of all lines", sharing_code),
    ];
    for (name, fresh) in wrong {
        let found = (0..LISTS).find(|&seed| {
            let mut drawn = Drawn::new(seed);
            drawn.using = one_line_each(&drawn.using);
            drawn.mix(fresh).is_err()
        });
        println!("{name}: found by seed {found:?}");
        assert!(found.is_some(), "{name}");
    }
}
