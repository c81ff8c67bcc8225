//! The input ends somewhere.

mod common;

use common::*;
use tape::{sample, Tape};

/// The sample cut behind every byte: what was printed before stays, then `cut`; at the end of the
/// setup and of each record the symbols are printed.
#[test]
fn at_every_position() {
    let tape = sample::tape();
    let bytes = tape.bytes();
    let mut ends = vec![tape.setup().len()];
    for (_, block) in &tape.records {
        ends.push(ends[ends.len() - 1] + 3 + block.len());
    }
    for at in 0..=bytes.len() {
        let printed = agreed(&format!("cut at {at}"), &bytes[..at]);
        assert_eq!(printed.ends_with("cut\n"), !ends.contains(&at), "at {at}");
        assert_eq!(printed.contains("sym"), ends.contains(&at), "at {at}");
        let records = ends.iter().filter(|&&end| end <= at).count();
        assert_eq!(
            printed.matches("block").count(),
            records.saturating_sub(1),
            "at {at}"
        );
    }
}

/// A cut block is not given to the book, whatever its line and its length.
#[test]
fn cut_blocks() {
    for line in [N, 40, 64, 255] {
        for len in [1, 72, 1000, 1001, 65_535] {
            let mut tape: Tape = desk();
            tape.record(line, vec![0; len]);
            let bytes = tape.bytes();
            let what = format!("a block of {len} on line {line}");
            assert_eq!(agreed(&what, &bytes[..bytes.len() - 1]), "cut\n");
            assert!(agreed(&what, &bytes).starts_with(&format!("block {line} ")));
        }
    }
}
