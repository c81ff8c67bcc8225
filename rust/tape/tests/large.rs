//! A large tape in a pipe: the program works while it reads, in memory that does not grow.

mod common;

use std::fs;
use std::io::{Read, Write};
use std::thread;
use std::time::Instant;

use common::*;
use second::build::{self, Odd};
use second::generate::Random;
use tape::{program, Tape};

const SYMBOLS: [&str; 8] = ["A", "BAC", "C", "F", "GE", "IBM", "NVR", "ZT"];
const LETTERS: &[u8; 8] = b"ABCNPQYZ";
const BLOCKS: usize = 40_000;
const MESSAGES: usize = 15;

/// Blocks of fifteen quotes, about 1,000 bytes each.
fn large_tape() -> Vec<u8> {
    let mut random = Random::new(7);
    let symbols = SYMBOLS.map(|symbol| (symbol, 100, b'N'));
    let lines: Vec<(u8, u8)> = (0..).zip(LETTERS.iter().copied()).collect();
    let mut bytes = Tape::new(&symbols, &lines).setup();
    let mut next = [1; 8];
    for _ in 0..BLOCKS {
        let line = random.below(8);
        let messages: Vec<Vec<u8>> = (0..MESSAGES)
            .map(|_| {
                let price = TEN + random.below(20) as u64 * CENT;
                let mut quoted = round(LETTERS[line], (price, 1), (price + CENT, 1));
                quoted.symbol = build::symbol(random.pick(&SYMBOLS));
                quoted.bid.1 += random.below(9) as u32;
                quoted.time = random.number() % 1000;
                build::round_lot(&quoted, &Odd::IDLE)
            })
            .collect();
        let block = build::block(next[line], &messages);
        next[line] += MESSAGES as u32;
        bytes.push(line as u8);
        bytes.extend((block.len() as u16).to_be_bytes());
        bytes.extend(block);
    }
    bytes
}

/// The most memory that a process has held so far, in kB.
fn peak(process: u32) -> u64 {
    let status = fs::read_to_string(format!("/proc/{process}/status")).expect("it runs");
    let line = status.lines().find(|line| line.starts_with("VmHWM:"));
    let words = line.map(str::split_whitespace);
    let number = words.and_then(|mut words| words.nth(1)?.parse().ok());
    number.expect("the status says VmHWM")
}

#[test]
fn large_tape_streams() {
    let tape = large_tape();
    let mut child = start();
    let mut input = child.stdin.take().expect("the input is a pipe");
    let mut output = child.stdout.take().expect("the output is a pipe");
    let reader = thread::spawn(move || {
        let mut printed = String::new();
        output.read_to_string(&mut printed).map(|_| printed)
    });
    let began = Instant::now();
    let (first, rest) = tape.split_at(1_000_000);
    input.write_all(first).expect("the program reads on");
    let early = peak(child.id());
    input.write_all(rest).expect("the program reads on");
    let late = peak(child.id());
    drop(input);
    let printed = reader.join().expect("no panic").expect("text");
    let seconds = began.elapsed().as_secs_f64();
    let end = child.wait_with_output().expect("the program ends");
    assert!(end.status.success() && end.stderr.is_empty());

    let megabytes = tape.len() as f64 / 1e6;
    let messages = (BLOCKS * MESSAGES) as f64;
    println!(
        "{megabytes:.0} MB, {messages} messages in {seconds:.2} s: {:.0} MB and {:.2} million messages a second; peak memory {early} kB after 1 MB, {late} kB at the end",
        megabytes / seconds,
        messages / seconds / 1e6,
    );
    assert!(
        late <= early + 256,
        "memory grows: {early} kB, then {late} kB"
    );
    assert_same("the large tape", &printed, &program::output(&tape));
    assert_eq!(printed.matches("msg ").count(), BLOCKS * MESSAGES);
}
