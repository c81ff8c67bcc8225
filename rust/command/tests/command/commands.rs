//! Every command on the sample recording, its output compared with the files in `expected`. With
//! UPDATE_EXPECTED in the environment they are written instead.

use std::fs;

use crate::support::{compare, folder, run, run_in, sample, Ran};

/// Runs a command on the sample, which has to end with this status, and compares what it prints.
fn shows(name: &str, status: i32, words: &[&str]) {
    let folder = sample();
    let ran = run_in(&folder, words);
    assert_eq!(ran.status, status, "{words:?}: {}", ran.errors);
    compare(name, &ran.output);
}

#[test]
fn info() {
    shows("info.txt", 0, &["info", "day.log"]);
    shows("info.json", 0, &["info", "day.log", "--json"]);
}

#[test]
fn health() {
    shows("health.txt", 0, &["health", "day.log"]);
    shows("health.json", 0, &["health", "day.log", "--json"]);
}

#[test]
fn replay() {
    let bad_line = ["replay", "day.log", "--from", "10:39", "--to", "10:40:01"];
    shows("replay.txt", 0, &bad_line);
    let halt = [
        "replay",
        "day.log",
        "--from",
        "10:59",
        "--to",
        "11:10:00.5",
        "--symbol",
        "IBM",
        "--json",
    ];
    shows("replay-halt.json", 0, &halt);
    shows("replay-line.txt", 0, &["replay", "day.log", "--line", "30"]);
}

#[test]
fn at() {
    let accident = [
        "at", "day.log", "--symbol", "ZT", "--time", "13:06", "--why",
    ];
    shows("at-accident.txt", 0, &accident);
    shows(
        "at-accident.json",
        0,
        &[&accident[..], &["--json"]].concat(),
    );
    shows(
        "at-halted.txt",
        0,
        &["at", "day.log", "--symbol", "IBM", "--time", "11:05"],
    );
    shows("at-end.txt", 0, &["at", "day.log", "--symbol", "NVR"]);
}

#[test]
fn changes() {
    let odd = ["changes", "day.log", "--symbol", "ZT", "--entry", "OB,OO"];
    shows("changes-odd.txt", 0, &odd);
    let all = [
        "changes", "day.log", "--symbol", "IBM", "--from", "10:58", "--to", "11:41", "--json",
    ];
    shows("changes-finra.json", 0, &all);
}

#[test]
fn audit() {
    shows("audit.txt", 0, &["audit", "day.log"]);
    shows("audit-second.txt", 0, &["audit", "day.log", "--second"]);
    shows(
        "audit-right.txt",
        0,
        &["audit", "day.log", "--log", "right.csv"],
    );
    shows(
        "audit-accident.txt",
        1,
        &["audit", "day.log", "--log", "router.csv"],
    );
    shows(
        "audit-accident.json",
        1,
        &["audit", "day.log", "--log", "router.csv", "--json"],
    );
}

#[test]
fn export() {
    for what in ["best", "messages", "quotes", "levels"] {
        let words = ["export", "day.log", "--what", what, "--symbol"];
        let symbol = if what == "levels" { "ZT" } else { "NVR" };
        shows(
            &format!("export-{what}.csv"),
            0,
            &[&words[..], &[symbol]].concat(),
        );
        let jsonl = [&words[..], &[symbol, "--format", "jsonl"]].concat();
        shows(&format!("export-{what}.jsonl"), 0, &jsonl);
    }
    let folder = sample();
    let blocks = ["export", "day.log", "--what", "blocks", "-o", "blocks.csv"];
    let Ran { status, output, .. } = run_in(&folder, &blocks);
    assert_eq!((status, output.as_str()), (0, ""));
    let blocks = fs::read_to_string(folder.join("blocks.csv")).expect("the rows");
    let refused: Vec<&str> = blocks
        .lines()
        .filter(|line| line.contains(",0,0,0"))
        .collect();
    compare("export-blocks.csv", &(refused.join("\n") + "\n"));
}

#[test]
fn queries() {
    let at = ["--symbol", "ZT", "--time", "13:06"];
    let ask = |words: &[&'static str]| [&words[..2], &at[..], &words[2..]].concat();
    shows(
        "try.txt",
        0,
        &ask(&["try", "day.log", "--side", "buy", "--lots", "9"]),
    );
    shows(
        "try.json",
        0,
        &ask(&["try", "day.log", "--side", "S", "--lots", "60", "--json"]),
    );
    shows(
        "protected.txt",
        0,
        &ask(&["protected", "day.log", "--side", "S", "--price", "10.10"]),
    );
    shows(
        "protected.json",
        0,
        &ask(&[
            "protected",
            "day.log",
            "--side",
            "B",
            "--price",
            "9.91",
            "--json",
        ]),
    );
    shows(
        "snapshot.txt",
        0,
        &ask(&["snapshot", "day.log", "-o", "zt.snapshot"]),
    );
    shows("snapshot.json", 0, &ask(&["snapshot", "day.log", "--json"]));
    let snapshot = fs::read(sample().join("zt.snapshot")).expect("the blocks");
    let decoded = quotebook::snapshot::Snapshot::from_bytes(&snapshot).expect("a snapshot");
    assert_eq!(decoded.letters.len(), 4);
}

#[test]
fn convert() {
    // Q P by N: IBM, 10.00 for 300 shares and 10.02 for 200 (source document 000).
    let block = [
        &[0, 0, 52, 0, 0, 0, 1, 1, 9, 29, 0, 42, b'Q', b'P', b'N'][..],
        &[
            0x6a, 0x0b, 0x14, 0x58, 0x39, 0xf5, 0xae, 0x8b, 1, 32, 32, 32, 32,
        ],
        &[0; 8],
        b"IBM  \x03\xe8\x01\x2c\x03\xea\x00\xc8 \0\0",
    ]
    .concat();
    let folder = sample();
    fs::write(folder.join("venue.block"), &block).expect("a block");
    let words = [
        "convert",
        "day.log",
        "--block",
        "venue.block",
        "-o",
        "venue.run",
    ];
    shows("convert.txt", 0, &words);
    assert_eq!(fs::read(folder.join("venue.run")).expect("a run").len(), 72);
    fs::write(folder.join("venue.bad"), &block[1..]).expect("a block");
    let bad = run_in(&folder, &["convert", "day.log", "--block", "venue.bad"]);
    assert_eq!(bad.status, 2);
    assert!(bad.errors.contains("78"), "{}", bad.errors);
}

#[test]
fn record_a_tape() {
    let folder = folder("tape");
    fs::write(folder.join("tape"), tape::sample::tape().bytes()).expect("a tape");
    let ran = run_in(&folder, &["record", "tape", "-o", "tape.log"]);
    assert_eq!(ran.status, 0, "{}", ran.errors);
    compare("record-tape.txt", &ran.output);
    let ran = run_in(&folder, &["health", "tape.log"]);
    compare("record-tape-health.txt", &ran.output);
    let audited = run_in(&folder, &["audit", "tape.log", "--second"]);
    assert_eq!(audited.status, 0);
    let bytes = tape::sample::tape().bytes();
    fs::write(folder.join("cut"), &bytes[..bytes.len() - 1]).expect("a tape");
    assert_eq!(
        run_in(&folder, &["record", "cut", "-o", "cut.log"]).status,
        3
    );
}

#[test]
fn record_a_capture() {
    let folder = folder("capture");
    let quote = second::build::Round::regular(b'N', 7, "ZT", (10_000_000, 3), (10_020_000, 2));
    let message = second::build::round_lot(&quote, &second::build::Odd::IDLE);
    let packets = [
        crate::support::udp(
            [224, 0, 0, 1],
            40005,
            &second::build::block(1, std::slice::from_ref(&message)),
        ),
        crate::support::udp(
            [224, 0, 0, 2],
            40005,
            &second::build::block(2, std::slice::from_ref(&message)),
        ),
        crate::support::udp([224, 0, 0, 1], 9, b"something else"),
        vec![0; 60],
    ];
    for (name, magic) in [("us", 0xa1b2_c3d4u32), ("ns", 0xa1b2_3c4d)] {
        let capture = crate::support::capture(magic, 1_794_925_800, &packets);
        fs::write(folder.join(name), &capture).expect("a capture");
        let map = "symbol ZT 100 N\nline 5 N 224.0.0.1:40005\nline 6 N 40005 # the other feed\n";
        fs::write(folder.join("map"), map).expect("a map");
        let log = format!("{name}.log");
        let words = ["record", name, "--map", "map", "-o", &log];
        let ran = run_in(&folder, &words);
        assert_eq!(ran.status, 0, "{}", ran.errors);
        compare("record-capture.txt", &ran.output);
        let ran = run_in(&folder, &["replay", &log, "--zone", "-05:00"]);
        compare(&format!("record-capture-{name}.txt"), &ran.output);
        let at = [
            "at", &log, "--symbol", "ZT", "--time", "09:30:00", "--zone", "-05:00", "--json",
        ];
        assert!(run_in(&folder, &at).output.contains("\"price\":\"10.02\""));
        fs::write(folder.join("cut"), &capture[..capture.len() - 1]).expect("a capture");
        let cut = run_in(&folder, &["record", "cut", "--map", "map", "-o", "cut.log"]);
        assert_eq!(cut.status, 3);
    }
}

#[test]
fn help_and_wrong_usage() {
    let help = run(&["help"]);
    assert_eq!(help.status, 0);
    compare("help.txt", &help.output);
    let folder = sample();
    for words in [
        &[][..],
        &["inf"],
        &["info"],
        &["info", "missing.log"],
        &["info", "day.log", "router.csv"],
        &["info", "day.log", "--symbol", "ZT"],
        &["at", "day.log"],
        &["at", "day.log", "--symbol"],
        &["at", "day.log", "--symbol", "NONE"],
        &["at", "day.log", "--symbol", "ZT", "--time", "noon"],
        &["at", "day.log", "--symbol", "ZT", "--unit", "h"],
        &["at", "day.log", "--symbol", "ZT", "--symbol", "ZT"],
        &["changes", "day.log", "--symbol", "ZT", "--entry", "XX"],
        &["audit", "day.log", "--log", "missing.csv"],
        &["audit", "day.log", "--log", "day.log"],
        &["export", "day.log", "--what", "all"],
        &["export", "day.log", "--format", "xml"],
        &[
            "protected",
            "day.log",
            "--symbol",
            "ZT",
            "--side",
            "B",
            "--price",
            "x",
        ],
        &[
            "try", "day.log", "--symbol", "ZT", "--side", "B", "--lots", "0",
        ],
        &["plot", "day.log", "--symbol", "ZT"],
    ] {
        let ran = run_in(&folder, words);
        assert_eq!(ran.status, 2, "{words:?} {}", ran.errors);
        assert!(
            ran.errors.starts_with("quotebook: "),
            "{words:?} {}",
            ran.errors
        );
    }
}

/// docs/REVIEWING.md shows what the commands print: every line of its tables is one of theirs.
#[test]
fn the_page_shows_what_is_printed() {
    let page = concat!(env!("CARGO_MANIFEST_DIR"), "/../../docs/REVIEWING.md");
    let page = fs::read_to_string(page).expect("the page");
    let folder = sample();
    let commands: [&[&str]; 4] = [
        &["health", "day.log"],
        &["audit", "day.log", "--log", "router.csv"],
        &[
            "at", "day.log", "--symbol", "ZT", "--time", "13:06", "--why",
        ],
        &["changes", "day.log", "--symbol", "ZT", "--entry", "OO"],
    ];
    let printed: Vec<String> = commands
        .iter()
        .map(|words| run_in(&folder, words).output)
        .collect();
    let (walk, _) = page.split_once("## Times").expect("the walk comes first");
    let shown: Vec<&str> = walk.split("```").skip(1).step_by(2).collect();
    assert_eq!(shown.len(), printed.len());
    for (shown, printed) in shown.iter().zip(&printed) {
        for line in shown.lines().filter(|line| *line != "...") {
            assert!(printed.lines().any(|other| other == line), "{line}");
        }
    }
}
