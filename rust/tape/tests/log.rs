//! Tapes turned into logs: the library restores the book from them, and answers what the tape program
//! prints.

use std::fmt::Write as _;
use std::io::Write as _;
use std::process::{Command, Stdio};

use quotebook::lent;
use quotebook::log::{Answers, Call, Records};
use quotebook::Number;
use tape::generate::{damaged, tape};
use tape::{program, sample};

/// What the tape program prints, up to the symbols, from the answers of a replay; and the publications
/// that were read.
fn printed(log: &[u8]) -> (String, Vec<Vec<u8>>) {
    let head = lent::log_head(log).expect("a head");
    let mut book = vec![0; lent::book_len(u32::from(head.n)).expect("n is 1 to 8")];
    let mut output = vec![0; 1 << 20];
    let told = lent::restore(&mut book, log, &mut output);
    assert_eq!((told.number, told.place), (Number::Done, log.len()));
    let answers = Answers::new(&output[..told.written]);
    let (mut text, mut publications) = (String::new(), Vec::new());
    for (record, answer) in Records::new(log).zip(answers) {
        let [number, gap, expected, ..] = answer.report;
        match record.call {
            Call::TakeBlock { line, .. } => {
                writeln!(text, "block {line} {number} {gap} {expected}").expect("a string");
                for message in answer.answers.chunks(4) {
                    let [index, code, flags] = [message[0], message[1], message[2]];
                    writeln!(text, "msg {index} {code} {flags}").expect("a string");
                }
            }
            Call::Read { .. } => publications.push(answer.publication.to_vec()),
            _ if number != 0 => writeln!(text, "setup {number}").expect("a string"),
            _ => {}
        }
    }
    (text, publications)
}

fn assert_same(tape: &[u8], what: &str) {
    let expected = program::output(tape);
    let Some(log) = program::log(tape) else {
        assert!(expected == "setup 2\n" || tape.is_empty(), "{what}");
        return;
    };
    let (text, publications) = printed(&log);
    let mut before_symbols: String = expected
        .split_inclusive('\n')
        .take_while(|line| !line.starts_with("sym "))
        .collect();
    if let Some(len) = before_symbols.strip_suffix("cut\n").map(str::len) {
        before_symbols.truncate(len);
    }
    assert_eq!(text, before_symbols, "{what}");
    assert!(publications == program::publications(tape), "{what}");
}

#[test]
fn random_tapes() {
    for seed in 0..150 {
        let tape = tape(seed, 60);
        assert_same(&tape.bytes(), &format!("seed {seed}"));
        assert_same(&damaged(seed, &tape), &format!("damaged, seed {seed}"));
    }
}

#[test]
fn cut_tapes() {
    let tape = sample::tape().bytes();
    for at in 0..=tape.len() {
        assert_same(&tape[..at], &format!("cut at {at}"));
    }
}

#[test]
fn the_program() {
    let tape = sample::tape().bytes();
    let run = |tape: &[u8]| {
        let mut child = Command::new(env!("CARGO_BIN_EXE_tape-to-log"))
            .stdin(Stdio::piped())
            .stdout(Stdio::piped())
            .stderr(Stdio::piped())
            .spawn()
            .expect("the program starts");
        let mut input = child.stdin.take().expect("a pipe");
        input.write_all(tape).expect("a pipe");
        drop(input);
        child.wait_with_output().expect("the program ends")
    };
    let done = run(&tape);
    assert!(done.status.success());
    assert_eq!(Some(done.stdout), program::log(&tape));
    let refused = run(&[9]);
    assert!(!refused.status.success() && refused.stdout.is_empty());
}
