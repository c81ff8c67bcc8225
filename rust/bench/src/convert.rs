//! What the conversion of a venue's own block costs, a message: its checks and length, and the run.

use std::hint::black_box;

use crate::library::Library;
use crate::query::{fastest, symbol};
use second::venue::build::{self, Header, Odd, Own};
use second::{Engine, QuoteBook};

/// Blocks of a round: each names other symbols.
const BLOCKS: usize = 200;

const TIME: [u32; 2] = [1_779_111_000, 972_402_315];

/// The messages of a block: a name, how many of them, and message i of one that names a symbol.
type Row = (&'static str, usize, fn([u8; 11]) -> Vec<u8>);

const ROWS: [Row; 6] = [
    ("Q P alone", 1, short),
    ("Q P, as many as fit", 23, short),
    ("Q K, as many as fit", 12, long),
    ("Q R of two, as many as fit", 24, short_odd),
    ("Q M of two, as many as fit", 17, long_odd),
    ("Q K of four, as many as fit", 8, long_with_odd),
];

fn five(symbol: [u8; 11]) -> [u8; 5] {
    let mut five = [b' '; 5];
    five.copy_from_slice(&symbol[..5]);
    five
}

fn odd(items: usize, price: u64) -> Odd {
    Odd {
        clear: b'X',
        bids: vec![(price, 5); items / 2],
        offers: vec![(price + 1, 5); items / 2],
    }
}

fn header(pair: &[u8; 2]) -> Header {
    Header::new(pair, b'N', TIME)
}

fn short(symbol: [u8; 11]) -> Vec<u8> {
    let sides = [(1_000, 300), (1_002, 200)];
    build::round_short(&header(b"QP"), five(symbol), sides, &Odd::IDLE)
}

fn long_of(symbol: [u8; 11], odd: &Odd) -> Vec<u8> {
    let sides = [(227_400_000, 250), (227_405_000, 990)];
    build::round_long(&header(b"QK"), symbol, sides, &Own::new(b'R'), odd)
}

fn long(symbol: [u8; 11]) -> Vec<u8> {
    long_of(symbol, &Odd::IDLE)
}

fn long_with_odd(symbol: [u8; 11]) -> Vec<u8> {
    long_of(symbol, &odd(4, 227_401_000))
}

fn short_odd(symbol: [u8; 11]) -> Vec<u8> {
    build::odd_short(&header(b"QR"), five(symbol), &odd(2, 1_001))
}

fn long_odd(symbol: [u8; 11]) -> Vec<u8> {
    build::odd_long(&header(b"QM"), symbol, &odd(2, 227_401_000))
}

/// A row for each kind of block, for 1 and 64 symbols.
pub fn print(rounds: usize) {
    println!(
        "| conversion, ns a message | n | a block | library, length | library, run | second, run |"
    );
    println!("|---|---|---|---|---|---|");
    for n in [1, 64] {
        let mut library = Library::fresh(n as u32);
        let mut engine = Engine::fresh(n as u32).expect("n is 1 to 64");
        for at in 0..n {
            assert_eq!(library.add_symbol(&symbol(at), 100, b'N'), 0);
            assert_eq!(engine.add_symbol(&symbol(at), 100, b'N'), 0);
        }
        for (name, count, message) in ROWS {
            // Symbols in an order that a processor does not foresee.
            let blocks: Vec<Vec<u8>> = (0..BLOCKS)
                .map(|at| {
                    let messages: Vec<Vec<u8>> = (0..count)
                        .map(|i| message(symbol((at * count + i) * 37 % n)))
                        .collect();
                    build::block(1, &messages)
                })
                .collect();
            let mut output = [0; 3_600];
            let length = fastest(rounds, |call| {
                let told = black_box(library.convert_len(&blocks[call % BLOCKS]));
                assert_eq!(told.number, 0);
            });
            let mut run = |book: &dyn QuoteBook| {
                fastest(rounds, |call| {
                    let told = book.convert(&blocks[call % BLOCKS], black_box(&mut output));
                    assert_eq!(told.number, 0);
                })
            };
            let times = [length, run(&library), run(&engine)];
            let times = times.map(|time| format!("{:.0}", time / count as f64));
            println!("| {name} | {n} | {count} | {} |", times.join(" | "));
        }
    }
}

#[cfg(test)]
mod tests {
    use super::*;

    /// The blocks have as many messages as fit, and both books convert them alike.
    #[test]
    fn the_rows_are_what_they_say() {
        print(1);
        let mut library = Library::fresh(1);
        let mut engine = Engine::fresh(1).expect("one symbol");
        assert_eq!(library.add_symbol(&symbol(0), 100, b'N'), 0);
        assert_eq!(engine.add_symbol(&symbol(0), 100, b'N'), 0);
        for (name, count, message) in ROWS {
            let block = build::block(1, &vec![message(symbol(0)); count]);
            let more = build::block(1, &vec![message(symbol(0)); count + 1]);
            assert!(
                block.len() <= 998 && (count == 1 || more.len() > 998),
                "{name}"
            );
            let mut outputs = [[0; 3_600]; 2];
            let told = library.convert(&block, &mut outputs[0]);
            assert_eq!(told, engine.convert(&block, &mut outputs[1]), "{name}");
            assert_eq!(outputs[0], outputs[1], "{name}");
        }
    }
}
