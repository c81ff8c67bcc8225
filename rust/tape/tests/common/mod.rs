//! Runs the proved tape program and compares what it prints with the second implementation.
#![allow(dead_code)]

use std::io::{ErrorKind, Read, Write};
use std::path::Path;
use std::process::{Child, Command, Stdio};
use std::thread;

use second::build::{self, Odd, Round, Shown};
use tape::{program, Tape};

/// The proved program.
const PROGRAM: &str = concat!(env!("CARGO_MANIFEST_DIR"), "/../../target/bin/tape");

/// The proved program, to be started.
pub fn command() -> Command {
    assert!(
        Path::new(PROGRAM).exists(),
        "target/bin/tape is missing: `demo/build` builds it"
    );
    Command::new(PROGRAM)
}

/// Starts the proved program with pipes for its input and output.
pub fn start() -> Child {
    command()
        .stdin(Stdio::piped())
        .stdout(Stdio::piped())
        .stderr(Stdio::piped())
        .spawn()
        .expect("target/bin/tape does not start")
}

/// What the proved program prints for a tape, with an exit status of 0 and no word of error.
pub fn run(tape: &[u8]) -> String {
    run_fed(|input| input.write_all(tape))
}

/// The same for whatever is written to its input.
pub fn run_fed(feed: impl FnOnce(&mut dyn Write) -> std::io::Result<()> + Send) -> String {
    let mut child = start();
    let mut input = child.stdin.take().expect("the input is a pipe");
    thread::scope(|scope| {
        // The program stops reading early when it refuses the setup.
        scope.spawn(move || match feed(&mut input) {
            Err(error) if error.kind() != ErrorKind::BrokenPipe => panic!("{error}"),
            _ => {}
        });
        finish(child)
    })
}

/// What the program prints until it ends, with an exit status of 0 and no word of error.
pub fn finish(mut child: Child) -> String {
    let mut printed = String::new();
    let mut output = child.stdout.take().expect("the output is a pipe");
    output
        .read_to_string(&mut printed)
        .expect("the program prints text");
    let end = child.wait_with_output().expect("the program ends");
    assert_eq!(end.status.code(), Some(0), "exit status");
    assert_eq!(String::from_utf8_lossy(&end.stderr), "", "standard error");
    printed
}

/// Runs both programs on a tape and gives what both print.
pub fn agreed(what: &str, tape: &[u8]) -> String {
    let expected = program::output(tape);
    assert_same(what, &run(tape), &expected);
    expected
}

/// Fails with the first line that differs.
pub fn assert_same(what: &str, printed: &str, expected: &str) {
    if printed == expected {
        return;
    }
    let mut lines = 1;
    let (mut proved, mut second) = (printed.lines(), expected.lines());
    loop {
        let (proved, second) = (proved.next(), second.next());
        if proved != second || proved.is_none() {
            panic!("{what}, output line {lines}: the proved program prints {proved:?}, the second {second:?}");
        }
        lines += 1;
    }
}

/// The lines of [`desk`] by letter.
pub const N: u8 = 5;
pub const P: u8 = 6;
pub const D: u8 = 7;

/// A tape of ZT (round lot 100, primary letter N) and YY (round lot 10, primary letter P) with lines
/// for N, P and D.
pub fn desk() -> Tape {
    Tape::new(
        &[("ZT", 100, b'N'), ("YY", 10, b'P')],
        &[(N, b'N'), (P, b'P'), (D, b'D')],
    )
}

/// 10.00 and a cent in six implied decimals.
pub const TEN: u64 = 10_000_000;
pub const CENT: u64 = 10_000;

/// A round part for ZT at time 7 under condition R.
pub fn round(letter: u8, bid: Shown, offer: Shown) -> Round {
    Round::regular(letter, 7, "ZT", bid, offer)
}

/// Q K for ZT without an odd part: 10.00 for 3, 10.02 for 2.
pub fn quote(letter: u8) -> Vec<u8> {
    build::round_lot(&round(letter, (TEN, 3), (TEN + 2 * CENT, 2)), &Odd::IDLE)
}

/// Q U for ZT.
pub fn maker(name: &str, bid: Shown, offer: Shown) -> Vec<u8> {
    build::maker_quote(&round(b'D', bid, offer), build::maker(name))
}

pub fn odd(clear: u8, bids: &[Shown], offers: &[Shown]) -> Odd {
    Odd {
        clear,
        bids: bids.to_vec(),
        offers: offers.to_vec(),
    }
}

/// Q M for ZT at time 7.
pub fn odd_lot(letter: u8, odd: &Odd) -> Vec<u8> {
    build::odd_lot(letter, 7, build::symbol("ZT"), odd)
}

/// Q T for ZT at time 7.
pub fn finra_odd_lot(letter: u8, odd: &Odd) -> Vec<u8> {
    build::finra_odd_lot(letter, 7, build::symbol("ZT"), odd)
}

/// T S for ZT at time 7.
pub fn status(letter: u8, status: u8) -> Vec<u8> {
    build::trading_status(letter, 7, build::symbol("ZT"), status)
}
