//! A recording with an allowance (T-14): blocks refused with 86 are shown, and audited.

use std::fs;

use crate::support::{compare, folder, run_in};
use quotebook::log::{Call, Head};
use second::build::{self, Odd, Round};

#[test]
fn blocks_refused_by_the_allowance() {
    let folder = folder("allowance");
    let mut log = Head::new(1).to_bytes().to_vec();
    let mut time = 34_200_000_000_000;
    let mut call = |call: Call| {
        time += 1_000_000;
        call.write(time, &mut log);
    };
    call(Call::AddSymbol {
        symbol: &build::symbol("ZT"),
        round_lot: 100,
        primary: b'N',
    });
    for (line, letter) in [(5, b'N'), (7, b'P')] {
        call(Call::OpenLine { line, letter });
    }
    call(Call::StartDay);
    let mut shares = [0; 64];
    shares[7] = 1;
    call(Call::SetAllowance {
        blocks: 3,
        shares: &shares,
    });
    let mut send = |line: u32, letter: u8, sequence: u32| {
        let messages = [0, 1, 2].map(|cent| {
            let bid = (9_990_000 + 10_000 * cent, sequence);
            let round = Round::regular(letter, 7, "ZT", bid, (10_050_000, 2));
            build::round_lot(&round, &Odd::IDLE)
        });
        let block = build::block(sequence, &messages);
        call(Call::TakeBlock {
            line,
            block: &block,
            room: 180,
        });
    };
    for sequence in [1, 4, 7] {
        send(5, b'N', sequence);
    }
    send(7, b'P', 1);
    call(Call::Tick);
    let mut send = |sequence: u32| {
        let round = Round::regular(b'N', 8, "ZT", (10_030_000, 1), (10_050_000, 2));
        let block = build::block(sequence, &[build::round_lot(&round, &Odd::IDLE)]);
        call(Call::TakeBlock {
            line: 5,
            block: &block,
            room: 180,
        });
    };
    send(7);
    fs::write(folder.join("day.log"), &log).expect("a recording");
    for (name, words) in [
        ("allowance-replay.txt", &["replay", "day.log"][..]),
        ("allowance-health.txt", &["health", "day.log"]),
        (
            "allowance-changes.txt",
            &["changes", "day.log", "--symbol", "ZT", "--entry", "NB"],
        ),
        ("allowance-audit.txt", &["audit", "day.log", "--second"]),
    ] {
        let ran = run_in(&folder, words);
        assert_eq!(ran.status, 0, "{words:?} {}", ran.errors);
        compare(name, &ran.output);
    }
}
