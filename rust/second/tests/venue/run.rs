//! Runs of blocks, and what a converter must answer.

use second::build;
use second::generate::{Foretold, LISTED};
use second::venue::{blocks, Convert, Converted, Converting};

/// A converter: the call that writes a run, and the one that tells its length.
#[derive(Clone, Copy)]
pub struct Converter {
    pub convert: Convert,
    pub convert_len: fn(&[u8]) -> Converted,
}

/// The round lot of a listed symbol.
pub fn lots(symbol: &[u8; 11]) -> Option<u32> {
    let listed = LISTED
        .iter()
        .find(|(name, _)| build::symbol(name) == *symbol);
    listed.map(|&(_, lot)| lot)
}

/// The blocks of a run.
pub fn cut(run: &[u8]) -> Vec<&[u8]> {
    let cut: Vec<&[u8]> = blocks(run).collect();
    assert_eq!(cut.concat(), run);
    cut
}

/// The run carries these messages under numbers that follow on, and no block could have had the first
/// message of the next.
pub fn assert_run(run: &[u8], mut sequence: u32, messages: &[Vec<u8>]) {
    let blocks = cut(run);
    let mut left = messages;
    for (at, block) in blocks.iter().enumerate() {
        let (number, carried) = build::split(block).expect("a block of ours");
        assert_eq!(number, sequence);
        assert_eq!(build::block(number, &carried), *block);
        sequence = sequence.wrapping_add(carried.len() as u32);
        let (front, behind) = left.split_at(carried.len());
        assert_eq!(carried, front);
        left = behind;
        assert!(block.len() <= 1_000);
        if at + 1 < blocks.len() {
            assert!(block.len() + 2 + left[0].len() > 1_000, "as many as fit");
        }
    }
    assert!(left.is_empty());
}

/// A converter's answer is the foretold one; a refusal changes no byte, and the bytes behind a run stay.
pub fn assert_foretold(converter: Converter, converting: &Converting, foretold: &Foretold) {
    let (converted, output) = converting.run(converter.convert, &lots);
    let (_, untouched) = converting.run(|_, _, _| Converted::refused(0), &lots);
    let first = (converter.convert_len)(&converting.block);
    assert_eq!(first.number, foretold.number, "{converting:?}");
    let short = first.number == 0 && converting.room < first.len;
    assert_eq!(converted.number, if short { 80 } else { first.number });
    if converted.number != 0 {
        assert_eq!(converted.len, 0);
        assert_eq!(output, untouched);
        return;
    }
    assert_eq!(converted.len, first.len);
    let (run, behind) = output.split_at(converted.len);
    assert_eq!(behind, &untouched[converted.len..]);
    assert_run(run, foretold.sequence, &foretold.messages);
}
