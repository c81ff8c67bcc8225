//! The converter of venues' blocks: worked cases, each rule by itself, random blocks whose conversion is
//! foretold from the values that they were built from, and its planted mistakes.

mod cases;
mod mistaken;
mod rules;
mod run;

use run::{assert_foretold, cut, lots, Converter};
use second::generate::{self, Random, LISTED};
use second::venue::{convert, convert_len, mistake};
use second::{build, QuoteBook, Reviewer};

const CONVERTER: Converter = Converter {
    convert: convert::<{ mistake::NONE }>,
    convert_len: convert_len::<{ mistake::NONE }>,
};
const BLOCKS: usize = 20_000;

#[test]
fn random_blocks_as_foretold() {
    let mut random = Random::new(0);
    let mut numbers = [0; 3];
    let mut blocks = [0; 30];
    for _ in 0..BLOCKS {
        let (converting, foretold) = generate::venue(&mut random);
        assert_foretold(CONVERTER, &converting, &foretold);
        let (converted, output) = converting.run(CONVERTER.convert, &lots);
        match converted.number {
            0 => blocks[cut(&output[..converted.len]).len()] += 1,
            number => numbers[usize::from(number) - 78] += 1,
        }
    }
    println!(
        "runs of 1 to 6 blocks {:?}; 78, 79 and 80 {numbers:?}",
        &blocks[1..7]
    );
    assert!(numbers.iter().all(|&times| times > 100), "{numbers:?}");
    assert!(blocks[1..4].iter().all(|&times| times > 100), "{blocks:?}");
}

/// A run is taken block by block, and its messages get only the codes that the conversion leaves open.
#[test]
fn runs_are_taken() {
    let mut random = Random::new(1);
    let mut codes = [0; 256];
    for _ in 0..3_000 {
        let (mut converting, foretold) = generate::venue(&mut random);
        converting.room = 3_600;
        let (converted, output) = converting.run(CONVERTER.convert, &lots);
        if converted.number != 0 {
            continue;
        }
        let mut book = Reviewer::fresh(LISTED.len() as u32).expect("a book");
        for (name, lot) in LISTED {
            assert_eq!(book.add_symbol(&build::symbol(name), lot, b'N'), 0);
        }
        let letter = foretold.messages[0][2];
        assert_eq!(book.open_line(5, letter), 0);
        assert_eq!(book.start_day(), 0);
        for (at, block) in cut(&output[..converted.len]).into_iter().enumerate() {
            let mut answer = [0; 180];
            let report = book.take_block(5, block, &mut answer);
            match report.number {
                0 => {}
                70 if at == 0 => {}
                // the block's number is behind the line's
                35 if at == 0 => break,
                number => panic!("{number} for block {at}"),
            }
            for answer in answer.chunks_exact(4).take(usize::from(block[1])) {
                codes[usize::from(answer[1])] += 1;
            }
        }
    }
    // 64 needs five levels of one letter, which random runs seldom bring together
    codes[64] = 0;
    let got: Vec<usize> = (0..256).filter(|&code| codes[code] > 0).collect();
    assert_eq!(got, [0, 41, 45, 47, 61, 62, 63]);
}

#[test]
fn every_mistake_is_found() {
    mistaken::find_every_mistake(CONVERTER.convert);
}
