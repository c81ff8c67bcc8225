//! Setups: every number that refuses one, in checking order, and where the program stops reading.

mod common;

use common::*;
use second::build;
use second::generate::Random;
use tape::Tape;

/// Both programs print this line and nothing else.
fn stops(what: &str, tape: &[u8], line: &str) {
    assert_eq!(agreed(what, tape), format!("{line}\n"), "{what}");
}

/// One symbol, its round lot and the primary letter N.
fn symbol(bytes: &[u8; 11], round_lot: u8) -> Vec<u8> {
    let mut tape = vec![1];
    tape.extend(bytes);
    tape.extend([round_lot, b'N']);
    tape
}

#[test]
fn symbol_count() {
    for count in (0..=0).chain(9..=255) {
        stops(&format!("count {count} alone"), &[count], "setup 2");
    }
    let mut tape = desk().bytes();
    tape[0] = 9;
    stops("count 9 and more", &tape, "setup 2");
    stops("empty input", &[], "cut");
    for count in 1..=8 {
        stops(&format!("count {count} alone"), &[count], "cut");
    }
}

#[test]
fn malformed_symbols() {
    for bytes in [
        b"           ",
        b"zT         ",
        b"1T         ",
        b"@T         ",
        b"[T         ",
        b"Z T        ",
        b" ZT        ",
        b"ZT        X",
        b"ZT\x1f        ",
        b"ZT\x7f        ",
        b"ZT\x80        ",
        b"ZT\x00        ",
        b"ZT\n        ",
    ] {
        let tape = symbol(bytes, 100);
        stops(&format!("{bytes:?}"), &tape, "setup 3");
        stops(&format!("{bytes:?} without its letter"), &tape[..13], "cut");
        stops("3 before 6", &symbol(bytes, 99), "setup 3");
    }
    for bytes in [b"S          ", b"Z!~az09.:/@", b"ZTZTZTZTZTZ"] {
        stops("well-formed, then nothing", &symbol(bytes, 1), "cut");
    }
}

#[test]
fn round_lots() {
    for round_lot in 0..=255 {
        let line = match round_lot {
            1 | 10 | 25 | 50 | 100 => "cut",
            _ => "setup 6",
        };
        let tape = symbol(b"ZT         ", round_lot);
        stops(&format!("round lot {round_lot}"), &tape, line);
    }
}

/// The letter behind the round lot: A to Z without S. The add comes when it is read.
#[test]
fn primary_letters() {
    for primary in 0..=255u8 {
        let letter = primary.is_ascii_uppercase() && primary != b'S';
        let mut tape = symbol(b"ZT         ", 100);
        tape[13] = primary;
        let line = if letter { "cut" } else { "setup 75" };
        stops(&format!("primary letter {primary}"), &tape, line);
        tape[12] = 7;
        stops("6 before 75", &tape, "setup 6");
        stops("a bad lot without its letter", &tape[..13], "cut");
    }
}

#[test]
fn symbol_listed() {
    let n = |symbol, round_lot| (symbol, round_lot, b'N');
    let twice = Tape::new(&[n("ZT", 100), n("YY", 10), n("ZT", 1)], &[]).setup();
    stops("twice ZT", &twice, "setup 4");
    stops("twice ZT, no line count", &twice[..1 + 3 * 13], "setup 4");
    stops("the second ZT is cut", &twice[..3 * 13], "cut");
    let lot = Tape::new(&[n("ZT", 100), n("ZT", 2)], &[]).setup();
    stops("6 before 4", &lot, "setup 6");
    let primary = Tape::new(&[n("ZT", 100), ("ZT", 100, b'S')], &[]).setup();
    stops("75 before 4", &primary, "setup 75");
    let eighth: Vec<(&str, u8, u8)> = ["A", "B", "C", "E", "F", "G", "H", "A"]
        .map(|symbol| n(symbol, 25))
        .to_vec();
    stops(
        "the eighth is the first",
        &Tape::new(&eighth, &[]).setup(),
        "setup 4",
    );
}

#[test]
fn lines_and_letters() {
    let with = |lines: &[(u8, u8)]| Tape::new(&[("ZT", 100, b'N')], lines).setup();
    for line in 64..=255 {
        stops(&format!("line {line}"), &with(&[(line, b'N')]), "setup 7");
    }
    for letter in 0..=255u8 {
        let tape = with(&[(5, letter)]);
        if letter.is_ascii_uppercase() && letter != b'S' {
            let printed = agreed("a letter", &tape);
            assert!(printed.starts_with("sym ZT\nNB - - 0 0\n"), "{printed}");
        } else {
            stops(&format!("letter {letter}"), &tape, "setup 7");
        }
    }
    stops("line 5 twice", &with(&[(5, b'N'), (5, b'N')]), "setup 8");
    stops(
        "line 5 twice, letters",
        &with(&[(5, b'N'), (5, b'P')]),
        "setup 8",
    );
    stops("7 before 8", &with(&[(5, b'N'), (5, b'S')]), "setup 7");
    let mut all: Vec<(u8, u8)> = (0..64).map(|line| (line, b'Z')).collect();
    assert!(agreed("64 lines of a letter", &with(&all)).starts_with("sym"));
    all.push((63, b'Z'));
    stops("65 lines", &with(&all), "setup 8");
    let mut counted = with(&[(5, b'N')]);
    counted[14] = 255;
    stops("255 lines, one there", &counted, "cut");
}

/// What is refused early is told although the input ends there, or is cut behind it.
#[test]
fn refusal_before_cut() {
    let n = |symbol, round_lot| (symbol, round_lot, b'N');
    let symbols = [n("ZT", 100), n("YY", 7), n("ZT", 100)];
    let tape = Tape::new(&symbols, &[(64, b'N')]).setup();
    stops("all that follows is there", &tape, "setup 6");
    stops("nothing follows", &tape[..27], "setup 6");
    stops("a byte less", &tape[..26], "cut");
    let lines = [(5, b'N'), (5, b'P'), (64, b'N')];
    let lines = Tape::new(&[n("ZT", 100)], &lines).setup();
    stops("line 5 again, nothing follows", &lines[..19], "setup 8");
    stops("its letter is missing", &lines[..18], "cut");
}

#[test]
fn no_lines_and_no_records() {
    let tape = Tape::new(&[("ZT", 100, b'N'), ("A.very!long", 1, b'P')], &[]);
    let none = "NB - - 0 0\nNO - - 0 0\nFB - - 0 0\nFO - - 0 0\nOB - - 0 0\nOO - - 0 0\n";
    let expected = format!("sym ZT\n{none}sym A.very!long\n{none}");
    assert_eq!(agreed("no lines, no records", &tape.bytes()), expected);
    let mut tape = tape;
    tape.send(5, 1, &[quote(b'N')]);
    tape.record(255, Vec::new());
    let expected = format!("block 5 21 0 0\nblock 255 21 0 0\n{expected}");
    assert_eq!(agreed("no lines", &tape.bytes()), expected);
}

/// Setups of arbitrary bytes behind a count that is mostly right.
#[test]
fn arbitrary_setups() {
    let mut random = Random::new(1);
    for round in 0..200 {
        let len = random.below(40);
        let mut tape = random.bytes(len);
        tape.insert(0, 1 + random.below(9) as u8);
        if random.percent(50) {
            tape.splice(1..1, build::symbol("ZT"));
            tape.splice(12..12, [100, b'N']);
            tape[0] = 1;
        }
        agreed(&format!("arbitrary setup {round}"), &tape);
    }
}
