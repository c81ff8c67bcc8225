//! Deterministic random tapes.

use second::generate::{day, Random};
use second::terms::number;
use second::{Call, Engine, QuoteBook};

use crate::Tape;

/// The tape of 1 to 8 symbols that a seed gives, with at most so many blocks.
pub fn tape(seed: u64, blocks: usize) -> Tape {
    let mut random = Random::new(!seed);
    let n = 1 + random.below(8) as u32;
    let blocks = random.below(blocks + 1);
    let mut book = Engine::fresh(n).expect("n is 1 to 8");
    let mut tape = Tape::default();
    for call in day(seed, n, blocks).calls {
        add(&mut tape, &mut book, call);
    }
    tape
}

/// Adds what a call stands for, if the setup of a tape takes it.
fn add(tape: &mut Tape, book: &mut Engine, call: Call) {
    match call {
        Call::AddSymbol {
            symbol,
            round_lot,
            primary,
        } => {
            let added = book.add_symbol(&symbol, round_lot, primary);
            if added == number::DONE {
                let symbol = symbol[..].try_into().expect("an added symbol is 11 bytes");
                tape.symbols.push((symbol, round_lot as u8, primary));
            }
        }
        Call::OpenLine { line, letter } => {
            let opened = book.open_line(line, letter);
            if opened == number::DONE {
                tape.lines.push((line as u8, letter));
            }
        }
        Call::TakeBlock { line, block, .. } => tape.record(line.min(255) as u8, block),
        _ => {}
    }
}

/// A tape's bytes with a mishap: cut somewhere, a byte of the setup or of anything altered, or
/// bytes added behind.
pub fn damaged(seed: u64, tape: &Tape) -> Vec<u8> {
    let mut random = Random::new(!seed);
    let mut bytes = tape.bytes();
    let setup = tape.setup().len();
    match random.below(5) {
        0 => bytes.truncate(random.below(setup + 1)),
        1 => bytes.truncate(random.below(bytes.len())),
        2 => {
            let at = random.below(setup);
            bytes[at] = random.pick(b"\x00\x01\x08\x09\x0a\x40\x64\xff ANSZ@[a");
        }
        3 => {
            let at = random.below(bytes.len());
            bytes[at] = random.byte();
        }
        _ => {
            let len = random.below(8);
            bytes.extend(random.bytes(len));
        }
    }
    bytes
}
