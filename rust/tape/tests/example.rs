//! The worked example of document 01, and the demo's tape.

mod common;

use std::fs;

use common::*;
use tape::output::Output;
use tape::{program, sample, show, Tape};

const EXAMPLE: &str = "\
block 5 0 0 2
msg 0 0 3
sym ZT
NB N R 10000000 3
NO N R 10020000 2
FB - - 0 0
FO - - 0 0
OB - - 0 0
OO - - 0 0
";

#[test]
fn worked_example() {
    let mut tape = Tape::new(&[("ZT", 100, b'N')], &[(N, b'N')]);
    tape.send(N, 1, &[quote(b'N')]);
    assert_eq!(program::output(&tape.bytes()), EXAMPLE);
    assert_eq!(run(&tape.bytes()), EXAMPLE);
}

/// A file that the repository holds.
fn file(path: &str) -> Vec<u8> {
    let root = concat!(env!("CARGO_MANIFEST_DIR"), "/../..");
    fs::read(format!("{root}/{path}")).unwrap_or_else(|error| panic!("{path}: {error}"))
}

/// The files that `rt check tape` runs the program on have the example too.
#[test]
fn worked_example_of_the_crate() {
    let bytes = file("crates/tape/stdin");
    assert_eq!(agreed("the crate's example", &bytes), EXAMPLE);
    assert_eq!(file("crates/tape/stdout"), EXAMPLE.as_bytes());
}

#[test]
fn sample_of_the_demo() {
    let bytes = file("demo/sample.tape");
    let tape = sample::tape();
    assert!(
        bytes == tape.bytes(),
        "demo/sample.tape is not what the binary `sample` writes"
    );
    assert_eq!(Tape::read(&bytes), Some(tape.clone()));
    let output: Output = agreed("the sample", &bytes)
        .parse()
        .expect("every line is one of the program's");
    let shown = show::tables(&tape, &output);
    for word in [
        "GAP of 3",
        "REFUSED: a duplicate (35)",
        "REJECTED: the symbol is not listed (45)",
        "PARTLY ACCEPTED: a fifth odd-lot price (64)",
        "TRADING HALTED",
        "REJECTED: not by the primary exchange (76)",
        "        odd lots  D         11.0415  x 40               D          11.049  x 25",
        "F       national  D    R      11.04  x 600  by size     Q    R      11.05  x 120  by size",
        "BRK.A   national  D    R  741420.00  x 1    by price    P    E  741950.00  x 1    by price",
    ] {
        assert!(shown.contains(word), "not shown: {word}\n{shown}");
    }
}

/// However the pipe hands the bytes over, in pieces of 1, 7 or 64 bytes.
#[test]
fn input_in_pieces() {
    let bytes = sample::tape().bytes();
    let expected = program::output(&bytes);
    for len in [1, 7, 64] {
        let printed = run_fed(|input| {
            for piece in bytes.chunks(len) {
                input.write_all(piece)?;
                std::thread::yield_now();
            }
            Ok(())
        });
        assert_same(&format!("pieces of {len}"), &printed, &expected);
    }
}
