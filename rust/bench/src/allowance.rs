//! What an allowance (T-14) costs a block: without one, charged to its line's share, charged to the spare,
//! and refused with 86; beside them a tick and a setting.

use std::hint::black_box;
use std::time::Instant;

use crate::library::Library;
use second::build::{self, Odd, Round};
use second::terms::{ANSWER_LEN, LINES};
use second::{Engine, QuoteBook};

/// Blocks of a round, all in one tick.
const BLOCKS: u32 = 200;
const LINE: u32 = 5;

/// The blocks for a tick and the line's share, if an allowance is set.
type Setting = Option<(u32, u8)>;

/// What is measured: a name, the setting, and what each block is answered.
const CASES: [(&str, Setting, u8); 4] = [
    ("no allowance", None, 0),
    ("of its line's share", Some((255, 255)), 0),
    ("of the spare", Some((255, 0)), 0),
    ("refused with 86", Some((1, 0)), 86),
];

/// A row for each case and size of block, then for a tick and a setting.
pub fn print(rounds: usize) {
    println!("| ns a block | messages | library | Engine |");
    println!("|---|---|---|---|");
    for count in [1, 15] {
        let blocks = blocks(count);
        // The cases take turns, so that another job meets them alike.
        let mut fastest = [[f64::INFINITY; 2]; CASES.len()];
        let mut library = CASES.map(|(_, set, _)| set_up(Library::fresh(1), set));
        let engine = || Engine::fresh(1).expect("1 is 1 to 64");
        let mut engines = CASES.map(|(_, set, _)| set_up(engine(), set));
        for _ in 0..rounds {
            for (at, (_, _, number)) in CASES.into_iter().enumerate() {
                let times = [
                    round(&mut library[at], &blocks, number),
                    round(&mut engines[at], &blocks, number),
                ];
                for (fastest, time) in fastest[at].iter_mut().zip(times) {
                    *fastest = fastest.min(time);
                }
            }
        }
        for ((name, _, _), [library, engine]) in CASES.into_iter().zip(fastest) {
            println!("| {name} | {count} | {library:.0} | {engine:.0} |");
        }
    }
    let [mut library, mut engine] = [f64::INFINITY; 2].map(|time| [time; 2]);
    let set = Some((255, 255));
    let mut book = set_up(Library::fresh(1), set);
    let mut second = set_up(Engine::fresh(1).expect("1 is 1 to 64"), set);
    for _ in 0..rounds {
        operator(&mut book, &mut library);
        operator(&mut second, &mut engine);
    }
    for (at, name) in ["a tick", "a setting"].into_iter().enumerate() {
        println!("| {name} | | {:.0} | {:.0} |", library[at], engine[at]);
    }
}

/// Quotes of one symbol, so many in each block.
fn blocks(count: u32) -> Vec<Vec<u8>> {
    let quote = |at: u32| {
        let bid = 10_000_000 + u64::from(at) * 10_000;
        let round = Round::regular(b'N', 7, "ZT", (bid, 3), (2 * bid, 3));
        build::round_lot(&round, &Odd::IDLE)
    };
    let block = |at: u32| {
        let messages: Vec<_> = (0..count).map(|message| quote(at + message)).collect();
        build::block(1 + at * count, &messages)
    };
    (0..BLOCKS).map(block).collect()
}

fn set_up<B: QuoteBook>(mut book: B, set: Setting) -> B {
    assert_eq!(book.add_symbol(&build::symbol("ZT"), 100, b'N'), 0);
    assert_eq!(book.open_line(LINE, b'N'), 0);
    assert_eq!(book.open_line(LINE + 1, b'P'), 0);
    if let Some((blocks, share)) = set {
        let mut shares = [0; LINES];
        shares[LINE as usize] = share;
        assert_eq!(book.set_allowance(blocks, &shares), 0);
    }
    book
}

/// A new day and a new tick, then every block: nanoseconds a block. Where the blocks are to be refused,
/// another line has used what there is.
fn round(book: &mut impl QuoteBook, blocks: &[Vec<u8>], number: u8) -> f64 {
    book.end_day();
    assert_eq!((book.start_day(), book.tick()), (0, 0));
    let mut answer = [0; ANSWER_LEN];
    if number == 86 {
        let other = build::block(1, &[vec![0; 20]]);
        assert_eq!(book.take_block(LINE + 1, &other, &mut answer).number, 0);
    }
    let began = Instant::now();
    for block in blocks {
        let report = book.take_block(LINE, black_box(block), &mut answer);
        assert_eq!(report.number, number);
    }
    began.elapsed().as_nanos() as f64 / blocks.len() as f64
}

/// The fastest tick and setting so far.
fn operator(book: &mut impl QuoteBook, fastest: &mut [f64; 2]) {
    let shares = black_box([1; LINES]);
    let mut time = |at: usize, call: &mut dyn FnMut() -> u8| {
        let began = Instant::now();
        for _ in 0..BLOCKS {
            assert_eq!(call(), 0);
        }
        let taken = began.elapsed().as_nanos() as f64 / f64::from(BLOCKS);
        fastest[at] = fastest[at].min(taken);
    };
    time(0, &mut || book.tick());
    time(1, &mut || book.set_allowance(255, &shares));
}

#[cfg(test)]
mod tests {
    use super::*;

    /// Both books give the answers that the rows are named for.
    #[test]
    fn the_rows_are_what_they_say() {
        print(1);
    }
}
