//! Blocks: those that are refused with each number, gaps, control messages, and all that messages
//! can do to one to eight symbols.

mod common;

use common::*;
use second::build::{self, Odd};
use tape::{program, Tape};

/// A tape of the desk with these records prints these `block` lines.
fn blocks(what: &str, records: &[(u8, Vec<u8>)], expected: &[&str]) {
    let mut tape = desk();
    tape.records = records.to_vec();
    let printed = agreed(what, &tape.bytes());
    let lines: Vec<&str> = printed
        .lines()
        .filter(|line| line.starts_with("block"))
        .collect();
    assert_eq!(lines, expected, "{what}");
}

/// A block of one quote, altered, then sealed again.
fn altered(alter: impl FnOnce(&mut Vec<u8>)) -> Vec<u8> {
    let mut block = build::block(1, &[quote(b'N')]);
    alter(&mut block);
    build::seal(&mut block);
    block
}

#[test]
fn refused_with_each_number() {
    let good = build::block(1, &[quote(b'N')]);
    let length = altered(|_| {})
        .iter()
        .copied()
        .chain([0])
        .collect::<Vec<_>>();
    let mut checksum = good.clone();
    checksum[9] ^= 1;
    let two = [build::header(b'C', b'I', b'N', 7), quote(b'N')];
    for (number, block) in [
        (30, length),
        (31, altered(|block| block[0] = 2)),
        (32, checksum),
        (33, altered(|block| block[1] = 0)),
        (33, altered(|block| block[1] = 46)),
        (33, altered(|block| block[11] += 1)),
        (34, build::block(1, &two)),
        (35, build::block(0, &[quote(b'N')])),
        (35, build::block(1 + (1 << 31), &[quote(b'N')])),
    ] {
        blocks(
            &format!("{number}"),
            &[(N, block.clone()), (N, good.clone()), (40, block)],
            &[
                &format!("block 5 {number} 0 1"),
                "block 5 0 0 2",
                "block 40 21 0 0",
            ],
        );
    }
}

#[test]
fn lengths() {
    for len in [0, 1, 2, 3, 4, 9, 10, 31, 32, 999, 1000, 1001, 1002, 65_535] {
        for fill in [0, 1, 255] {
            let mut tape = desk();
            tape.record(N, vec![fill; len]);
            tape.send(N, 1, &[quote(b'N')]);
            let printed = agreed(&format!("{len} bytes of {fill}"), &tape.bytes());
            assert!(printed.starts_with("block 5 30 0 1\nblock 5 0 0 2\n"));
        }
    }
    for len in [20, 978, 979] {
        let mut message = quote(b'N');
        message.resize(len, 0);
        let block = build::block(1, &[message]);
        let expected = match block.len() {
            1001 => "block 5 30 0 1",
            _ => "block 5 0 0 2",
        };
        blocks(&format!("a message of {len}"), &[(N, block)], &[expected]);
    }
}

#[test]
fn every_line() {
    for line in 0..=255u8 {
        let expected = match line {
            N => "block 5 0 0 2".to_string(),
            P => "block 6 0 0 2".to_string(),
            D => "block 7 0 0 2".to_string(),
            _ => format!("block {line} 21 0 0"),
        };
        let block = build::block(1, &[quote(b'N')]);
        blocks(&format!("line {line}"), &[(line, block)], &[&expected]);
    }
}

#[test]
fn gaps_and_wraps() {
    let at = |sequence: u32| (N, build::block(sequence, &[quote(b'N')]));
    let two = build::block(u32::MAX, &[quote(b'N'), quote(b'N')]);
    blocks(
        "gaps",
        &[
            at(4),
            at(4),
            at(5),
            at(5 + 1 + (1 << 31)),
            at(u32::MAX / 2 + 6),
        ],
        &[
            "block 5 70 3 5",
            "block 5 35 0 5",
            "block 5 0 0 6",
            "block 5 35 0 6",
            "block 5 70 2147483647 2147483654",
        ],
    );
    blocks(
        "the numbers wrap",
        &[at(1 << 31), (N, two), at(0), at(1)],
        &[
            "block 5 70 2147483647 2147483649",
            "block 5 70 2147483646 1",
            "block 5 35 0 1",
            "block 5 0 0 2",
        ],
    );
}

/// C I, C T and C 5 move nothing, whatever their number, also if they are rejected.
#[test]
fn control_messages() {
    for (name, message) in [
        ("C I", build::header(b'C', b'I', b'N', 7)),
        ("C T", build::header(b'C', b'T', b'N', 7)),
        ("C 5", build::test(b'N', 7)),
        ("C T of P", build::header(b'C', b'T', b'P', 7)),
        ("C 5 cut", build::test(b'N', 7)[..114].to_vec()),
    ] {
        let block = build::block(9_000, &[message]);
        blocks(name, &[(N, block)], &["block 5 0 0 1"]);
    }
    for message_type in [b'C', b'O', b'?'] {
        let message = build::header(b'C', message_type, b'N', 7);
        let block = build::block(1, &[message]);
        blocks("other control", &[(N, block)], &["block 5 0 0 2"]);
    }
}

/// One to eight symbols, each with a quote of its own, each of a round lot of its own.
#[test]
fn one_to_eight_symbols() {
    let names = ["ZT", "A", "BRK.A", "ZZZZZZZZZZZ", "S", "Q~!", "Ma.pr", "YY"];
    let round_lots = [100, 1, 10, 25, 50, 100, 1, 10];
    for count in 1..=8 {
        let listed = names.into_iter().zip(round_lots).take(count);
        let symbols: Vec<_> = listed.map(|(name, lot)| (name, lot, b'N')).collect();
        let mut tape = Tape::new(&symbols, &[(0, b'N'), (63, b'Z')]);
        for (place, name) in names.into_iter().enumerate() {
            let price = TEN + place as u64 * CENT;
            let mut quoted = round(b'N', (price, 1), (price + 1, 2));
            quoted.symbol = build::symbol(name);
            let message = build::round_lot(&quoted, &Odd::IDLE);
            tape.send(0, 1 + place as u32, &[message]);
        }
        let printed = agreed(&format!("{count} symbols"), &tape.bytes());
        assert_eq!(printed.matches("sym ").count(), count);
        assert_eq!(printed.matches("msg 0 45 0").count(), 8 - count);
    }
}

/// Every byte as a condition, on N's line and of a maker, after a quote that counts.
#[test]
fn conditions() {
    for condition in 0..=255 {
        let mut tape = desk();
        tape.send(N, 1, &[quote(b'N')]);
        let mut quoted = round(b'P', (TEN + CENT, 1), (TEN + CENT, 1));
        quoted.condition = condition;
        tape.send(P, 1, &[build::round_lot(&quoted, &Odd::IDLE)]);
        quoted.letter = b'D';
        quoted.bid.0 += CENT;
        tape.send(D, 1, &[build::maker_quote(&quoted, build::maker("KNLI"))]);
        agreed(&format!("condition {condition}"), &tape.bytes());
    }
}

/// Seventeen makers, freed and closed and opened, names of one to four letters.
#[test]
fn makers() {
    let mut tape = desk();
    let names: Vec<String> = (0..17)
        .map(|i: u8| {
            char::from(b'A' + i)
                .to_string()
                .repeat(usize::from(1 + i % 4))
        })
        .collect();
    let mut next = 1;
    let mut send = |messages: &[Vec<u8>]| {
        tape.send(D, next, messages);
        next += messages.len() as u32;
    };
    for (place, name) in names.iter().enumerate() {
        let price = TEN + (place as u64 % 5) * CENT;
        send(&[maker(
            name,
            (price, 1 + place as u32 % 3),
            (price + CENT, 2),
        )]);
    }
    send(&[maker(&names[16], (0, 0), (0, 0))]);
    send(&[
        maker(&names[4], (0, 0), (0, 0)),
        maker(&names[16], (TEN, 9), (TEN, 9)),
    ]);
    send(&[build::header(b'C', b'C', b'D', 9)]);
    send(&[
        maker("Z", (TEN, 1), (TEN, 1)),
        maker("AB", (TEN, 1), (TEN, 1)),
    ]);
    send(&[build::header(b'C', b'O', b'D', 9)]);
    send(&[
        maker("a", (TEN, 1), (TEN, 1)),
        maker("A A", (TEN, 1), (TEN, 1)),
    ]);
    let printed = agreed("makers", &tape.bytes());
    for line in ["msg 0 49 0", "msg 0 0 15", "msg 1 48 0"] {
        assert!(printed.contains(line), "{line} in\n{printed}");
    }
}

/// Odd lots of two letters and of FINRA: levels, a fifth, each fault, and each clear mark.
#[test]
fn odd_lots() {
    let four: Vec<_> = (1..=4).map(|cents| (TEN + cents * CENT, 10)).collect();
    let five: Vec<_> = (1..=5).map(|cents| (TEN + cents * CENT, 10)).collect();
    let fifth = [(TEN + 9 * CENT, 5)];
    for clear in [b' ', b'B', b'S', b'X', b'x', 0] {
        let parts = [
            odd(clear, &four, &[]),
            odd(clear, &fifth, &fifth),
            odd(clear, &five, &[]),
            odd(clear, &[(0, 1)], &[]),
            odd(clear, &[], &[(TEN, 100)]),
            odd(clear, &[(TEN, 99)], &[(TEN + CENT, 99)]),
            odd(clear, &[(TEN + CENT, 0)], &[(TEN, 0)]),
        ];
        let mut tape = desk();
        tape.send(N, 1, &[quote(b'N')]);
        let quoted = round(b'N', (TEN, 3), (TEN + 3 * CENT, 3));
        for (place, part) in parts.iter().enumerate() {
            let next = 1 + 2 * place as u32;
            let with_round = build::round_lot(&quoted, part);
            tape.send(N, 1 + next, &[odd_lot(b'N', part), with_round]);
            tape.send(P, next, &[odd_lot(b'P', part), odd_lot(b'P', part)]);
            tape.send(D, next, &[finra_odd_lot(b'D', part), odd_lot(b'D', part)]);
        }
        agreed(&format!("clear mark {clear}"), &tape.bytes());
    }
}

/// An odd lot of FINRA leads under the letter D once a maker quotes that side; off D's line it is 44.
#[test]
fn finra_odd_lots() {
    let part = odd(b' ', &[(TEN, 9)], &[]);
    let bid = build::maker_quote(&round(b'D', (TEN - CENT, 1), (0, 0)), build::maker("KNLI"));
    let mut tape = desk();
    tape.send(D, 1, &[finra_odd_lot(b'D', &part), bid]);
    tape.send(N, 1, &[finra_odd_lot(b'N', &part), odd_lot(b'N', &part)]);
    let printed = agreed("FINRA's odd lots", &tape.bytes());
    for line in [
        "msg 0 0 0",
        "msg 1 0 21",
        "msg 0 44 0",
        "msg 1 0 0",
        "OB D - 10000000 9",
    ] {
        assert!(printed.contains(line), "{line} in\n{printed}");
    }
}

/// A quote behind the leader sets its flags, by what put the leader ahead, which no line tells (T-08).
#[test]
fn a_quote_behind_the_leader() {
    let behind = build::round_lot(&round(b'P', (1, 1), (u64::MAX, 1)), &Odd::IDLE);
    let mut tape = desk();
    tape.send(N, 1, &[quote(b'N')]);
    tape.send(P, 1, &[behind.clone(), behind]);
    let printed = agreed("a quote behind the leader", &tape.bytes());
    let alone = program::output(&{
        let mut tape = desk();
        tape.send(N, 1, &[quote(b'N')]);
        tape.bytes()
    });
    assert!(printed.contains("block 6 0 0 3\nmsg 0 0 3\nmsg 1 0 0\n"));
    let symbols = |printed: &str| printed[printed.find("sym").expect("a symbol")..].to_string();
    assert_eq!(symbols(&printed), symbols(&alone));
}

/// 45 messages in a block, of 20 bytes each; fifteen quotes, which fit, and sixteen.
#[test]
fn full_blocks() {
    let mut tape = desk();
    tape.send(N, 1, &vec![build::header(b'Q', b'?', b'N', 7); 45]);
    tape.send(N, 46, &vec![quote(b'N'); 15]);
    tape.send(P, 1, &vec![quote(b'P'); 16]);
    let printed = agreed("full blocks", &tape.bytes());
    for line in [
        "msg 44 40 0",
        "block 5 0 0 61",
        "msg 14 0 0",
        "block 6 30 0 1",
    ] {
        assert!(printed.contains(line), "{line} in\n{printed}");
    }
}

/// The largest numbers.
#[test]
fn large_numbers() {
    let mut tape = desk();
    let largest = (u64::MAX, u32::MAX);
    let quoted = round(b'N', largest, largest);
    tape.send(N, 1, &[build::round_lot(&quoted, &Odd::IDLE)]);
    tape.send(D, 1, &[maker("ZZZZ", (1, 1), (1, 1))]);
    let printed = agreed("large numbers", &tape.bytes());
    assert!(printed.contains("NB N R 18446744073709551615 4294967295\nNO D R 1 1\n"));
}
