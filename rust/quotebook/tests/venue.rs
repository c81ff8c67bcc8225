//! The conversion of venues' own blocks: the worked cases and each rule on the library, random and damaged
//! blocks beside the second implementation's converter, its planted mistakes, and runs that the library
//! takes. The memory around every buffer is guarded (see `support/guarded.rs`).
//!
//! The variables FIRST_SEED and BLOCKS of the environment choose other blocks or more of them.

#[path = "../../second/tests/venue/cases.rs"]
mod cases;
#[path = "../../second/tests/venue/mistaken.rs"]
mod mistaken;
#[path = "../../second/tests/venue/rules.rs"]
mod rules;
#[path = "../../second/tests/venue/run.rs"]
mod run;
mod support;

use std::cell::RefCell;

use quotebook::Book;
use run::{assert_foretold, lots, Converter};
use second::generate::{self, from_environment, Random, LISTED};
use second::terms::ANSWER_LEN;
use second::venue::{self, mistake, Convert, Converted, Converting, Lots};
use second::{build, Engine, QuoteBook};
use support::guarded::{Fenced, Guarded};

const CONVERTER: Converter = Converter {
    convert: library,
    convert_len: library_len,
};

thread_local! {
    static BOOK: RefCell<Guarded> = RefCell::new(book());
}

/// The listed symbols, N's line 5 and an open day.
fn book() -> Guarded {
    let mut book = Guarded::fresh(LISTED.len() as u32);
    for (name, lot) in LISTED {
        assert_eq!(book.add_symbol(&build::symbol(name), lot, b'N'), 0);
    }
    book
}

/// The library as a converter that others can be compared with: its book has the listed symbols.
fn library(block: &[u8], _: Lots, output: &mut [u8]) -> Converted {
    BOOK.with_borrow(|book| {
        let mut fenced = Fenced::new(output);
        let converted = book.convert(block, fenced.bytes_mut());
        assert!(fenced.stands(), "a byte around the output was written");
        output.copy_from_slice(fenced.bytes());
        converted
    })
}

fn library_len(block: &[u8]) -> Converted {
    BOOK.with_borrow(|book| book.convert_len(block))
}

/// Random and damaged blocks: equal answers, and equal bytes of the whole output.
#[test]
fn random_blocks() {
    let first = from_environment("FIRST_SEED", 0);
    let blocks = from_environment("BLOCKS", 20_000);
    let mut random = Random::new(first);
    let mut numbers = [0; 3];
    let mut runs = 0;
    println!("{blocks} blocks from seed {first} on, and as many damaged ones");
    for at in 0..2 * blocks {
        let converting = match at % 2 {
            0 => {
                let (converting, foretold) = generate::venue(&mut random);
                assert_foretold(CONVERTER, &converting, &foretold);
                converting
            }
            _ => generate::damaged_venue(&mut random),
        };
        let reference = venue::convert::<{ mistake::NONE }>;
        let expected = converting.run(reference, &lots);
        assert_eq!(converting.run(library, &lots), expected, "{converting:?}");
        let needed = venue::convert_len::<{ mistake::NONE }>(&converting.block);
        assert_eq!(library_len(&converting.block), needed, "{converting:?}");
        match expected.0.number {
            0 => runs += 1,
            number => numbers[usize::from(number) - 78] += 1,
        }
    }
    println!("{runs} runs; 78, 79 and 80 {numbers:?}");
    assert!(numbers.iter().all(|&times| times > 100) && runs > 1_000);
}

#[test]
fn every_mistake_is_found() {
    mistaken::find_every_mistake(library as Convert);
}

/// A run is taken block by block: every block's number is 0, the codes are those that the second
/// implementation foretells, and only those that the conversion leaves open.
#[test]
fn runs_are_taken() {
    let mut random = Random::new(1);
    let mut codes = [0; 256];
    let mut blocks = 0;
    for _ in 0..5_000 {
        let (Converting { block, .. }, foretold) = generate::venue(&mut random);
        let mut book = Book::new(LISTED.len() as u32).expect("a book");
        let mut second = Engine::fresh(LISTED.len() as u32).expect("a book");
        for (name, lot) in LISTED {
            book.add_symbol(name, lot, b'N').expect("a symbol");
            assert_eq!(second.add_symbol(&build::symbol(name), lot, b'N'), 0);
        }
        let Ok(run) = book.convert(&block) else {
            continue;
        };
        let letter = foretold.messages[0][2];
        book.open_line(5, letter).expect("a line");
        book.start_day().expect("a day");
        assert_eq!([second.open_line(5, letter), second.start_day()], [0, 0]);
        for (at, block) in run.blocks().enumerate() {
            let mut answer = [0; ANSWER_LEN];
            let report = second.take_block(5, block, &mut answer);
            match book.take_block(5, block) {
                Ok(taken) => {
                    assert!(at == 0 || taken.report.gap == 0);
                    for (answer, told) in answer.chunks(4).zip(taken.answers()) {
                        let code = u8::from(told.code);
                        assert_eq!(code, answer[1], "{block:?}");
                        codes[usize::from(code)] += 1;
                    }
                    blocks += 1;
                }
                // The venue block's number lies behind the line's.
                Err(refusal) => {
                    assert_eq!((at, u8::from(refusal.number), report.number), (0, 35, 35));
                    break;
                }
            }
        }
    }
    println!("{blocks} blocks taken");
    // 64 needs five levels of one letter, which random runs seldom bring together.
    codes[64] = 0;
    let got: Vec<usize> = (0..256).filter(|&code| codes[code] > 0).collect();
    assert_eq!(got, [0, 41, 45, 47, 61, 62, 63]);
}
