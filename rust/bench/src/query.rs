//! What a query about a protected price costs, by the letter that answers, and an order, by its steps,
//! beside a read and a snapshot; then the calls that go to every page.

use std::hint::black_box;
use std::time::Instant;

use crate::library::Library;
use second::build::{self, Odd, Round};
use second::terms::SNAPSHOT_MAX;
use second::{Engine, QuoteBook};

/// What is asked: a name, the price in cents above 10.00, and the letters that are looked at.
const ASKED: [(&str, u64, u8); 5] = [
    ("yes at A", 0, 1),
    ("yes at D, its last maker", 3, 4),
    ("yes at N", 13, 14),
    ("yes at Z", 25, 26),
    ("no", 26, 26),
];

/// The orders: the lots of so many steps, three lots each.
const ORDERS: [(&str, u32, u8); 4] = [
    ("an order of 1 step", 3, 1),
    ("5 steps", 15, 5),
    ("25 steps", 75, 25),
    ("25 steps, lots not found", 1_000_000, 25),
];

/// Calls of a round, and rounds.
const CALLS: usize = 2_000;

/// Calls to every page of a round.
const EVERY: u32 = 100;
/// D's line.
const D_LINE: u32 = 3;

const TEN: u64 = 10_000_000;
const CENT: u64 = 10_000;

/// The symbol in this place.
pub fn symbol(at: usize) -> [u8; 11] {
    build::symbol(&format!("A{at}"))
}

/// Each letter bids as many cents above 10.00 as letters stand before it, and offers as many below
/// 20.00; of D's sixteen makers the last one does, the others bid and offer 5.00 and 30.00.
fn set_up(book: &mut impl QuoteBook, n: usize) {
    for at in 0..n {
        assert_eq!(book.add_symbol(&symbol(at), 100, b'N'), 0);
    }
    let letters = (b'A'..=b'Z').filter(|&letter| letter != b'S');
    for (line, letter) in letters.clone().enumerate() {
        assert_eq!(book.open_line(line as u32, letter), 0);
    }
    assert_eq!(book.start_day(), 0);
    for (line, letter) in letters.enumerate() {
        let mut sequence = 1;
        let mut send = |message: Vec<u8>| {
            let block = build::block(sequence, &[message]);
            let report = book.take_block(line as u32, &block, &mut [0; 180]);
            assert_eq!((report.number, report.accepted), (0, 1));
            sequence += 1;
        };
        for at in 0..n {
            let cents = u64::from(letter - b'A') * CENT;
            let mut round = Round::regular(letter, 7, "", (TEN + cents, 3), (2 * TEN - cents, 3));
            round.symbol = symbol(at);
            if letter != b'D' {
                send(build::round_lot(&round, &Odd::IDLE));
                continue;
            }
            for maker in b'A'..=b'P' {
                let mut made = round.clone();
                if maker != b'P' {
                    (made.bid, made.offer) = ((TEN / 2, 3), (3 * TEN, 3));
                }
                send(build::maker_quote(&made, [maker, b' ', b' ', b' ']));
            }
        }
    }
}

/// Nanoseconds a call in the fastest round.
pub fn fastest(rounds: usize, mut call: impl FnMut(usize)) -> f64 {
    let round = |_| {
        let began = Instant::now();
        (0..CALLS).for_each(&mut call);
        began.elapsed().as_nanos() as f64 / CALLS as f64
    };
    (0..rounds).map(round).fold(f64::INFINITY, f64::min)
}

/// Nanoseconds of a FINRA Close or Open, in turn, and of an End with a Start of Day, each in the fastest round.
fn every_page(book: &mut impl QuoteBook, n: usize, rounds: usize) -> [f64; 2] {
    let mut fastest = [f64::INFINITY; 2];
    // D's sixteen makers have quoted each symbol.
    let mut sequence = 1 + 16 * n as u32;
    let each = |began: Instant| began.elapsed().as_nanos() as f64 / f64::from(EVERY);
    for _ in 0..rounds {
        let control = |at: u32| {
            let kind = if at.is_multiple_of(2) { b'C' } else { b'O' };
            build::block(sequence + at, &[build::header(b'C', kind, b'D', 7)])
        };
        let blocks: Vec<_> = (0..EVERY).map(control).collect();
        sequence += EVERY;
        let began = Instant::now();
        for block in &blocks {
            let report = book.take_block(D_LINE, black_box(block), &mut [0; 180]);
            assert_eq!((report.number, report.accepted), (0, 1));
        }
        fastest[0] = fastest[0].min(each(began));
    }
    for _ in 0..rounds {
        let began = Instant::now();
        for _ in 0..EVERY {
            assert_eq!((book.end_day(), book.start_day()), (0, 0));
        }
        fastest[1] = fastest[1].min(each(began));
    }
    fastest
}

/// A row for each answer, each order and a read, for 1 and 64 symbols, bids and offers alike.
pub fn print(rounds: usize) {
    println!("| query, ns a call | n | library, bids | library, offers | Engine, bids |");
    println!("|---|---|---|---|---|");
    for n in [1, 64] {
        let mut library = Library::fresh(n as u32);
        let mut engine = Engine::fresh(n as u32).expect("n is 1 to 64");
        set_up(&mut library, n);
        set_up(&mut engine, n);
        // Symbols in an order that a processor does not foresee.
        let symbols: Vec<_> = (0..CALLS).map(|call| symbol(call * 37 % n)).collect();
        for (name, cents, looked) in ASKED {
            let (bid, offer) = (TEN + cents * CENT, 2 * TEN - cents * CENT);
            let time = |book: &dyn QuoteBook, side, price| {
                let yes = name != "no";
                fastest(rounds, |call| {
                    let told = black_box(book.is_protected(&symbols[call], side, price));
                    assert_eq!((told.number, told.yes, told.looked), (0, yes, looked));
                })
            };
            let times = [
                time(&library, b'B', bid),
                time(&library, b'S', offer),
                time(&engine, b'B', bid),
            ];
            let times = times.map(|time| format!("{time:.0}"));
            println!("| {name} | {n} | {} |", times.join(" | "));
        }
        for (name, lots, expected) in ORDERS {
            let mut steps = [0; 325];
            let mut time = |book: &dyn QuoteBook, side| {
                fastest(rounds, |call| {
                    let told = book.try_order(&symbols[call], side, lots, black_box(&mut steps));
                    assert_eq!((told.number, told.steps), (0, expected));
                })
            };
            let times = [
                time(&library, b'S'),
                time(&library, b'B'),
                time(&engine, b'S'),
            ];
            let times = times.map(|time| format!("{time:.0}"));
            println!("| {name} | {n} | {} |", times.join(" | "));
        }
        let mut publication = [0; 96];
        let mut read = |book: &dyn QuoteBook| {
            fastest(rounds, |call| {
                assert_eq!(book.read(&symbols[call], black_box(&mut publication)), 0);
            })
        };
        let (of_library, of_engine) = (read(&library), read(&engine));
        println!("| a read, 96 bytes | {n} | {of_library:.0} | | {of_engine:.0} |");
        let size = |book: &dyn QuoteBook| {
            fastest(rounds, |call| {
                let told = black_box(book.snapshot_len(&symbols[call]));
                assert_eq!((told.blocks, told.bytes), (2, SNAPSHOT_MAX));
            })
        };
        let (of_library, of_engine) = (size(&library), size(&engine));
        println!("| a snapshot's length | {n} | {of_library:.0} | | {of_engine:.0} |");
        let mut output = [0; SNAPSHOT_MAX];
        let mut write = |book: &dyn QuoteBook| {
            fastest(rounds, |call| {
                let told = book.snapshot(&symbols[call], black_box(&mut output));
                assert_eq!(told.bytes, SNAPSHOT_MAX);
            })
        };
        let (of_library, of_engine) = (write(&library), write(&engine));
        println!("| a snapshot, {SNAPSHOT_MAX} bytes | {n} | {of_library:.0} | | {of_engine:.0} |");
        let of_library = every_page(&mut library, n, rounds);
        let of_engine = every_page(&mut engine, n, rounds);
        for (at, name) in ["FINRA Close or Open", "an End and a Start of Day"]
            .into_iter()
            .enumerate()
        {
            println!(
                "| {name} | {n} | {:.0} | | {:.0} |",
                of_library[at], of_engine[at]
            );
        }
    }
}

#[cfg(test)]
mod tests {
    use super::*;

    /// Both books give the answers that the rows are named for.
    #[test]
    fn the_rows_are_what_they_say() {
        print(1);
    }
}
