//! Recordings that are cut or damaged, and outputs that are lost.

use std::fs;
use std::process::Stdio;

use crate::support::{command, folder, run_in, sample};
use quotebook::log::Records;

/// What every command is given beside the recording.
const COMMANDS: &[&[&str]] = &[
    &["info"],
    &["health"],
    &["replay"],
    &["at", "--symbol", "ZT", "--why", "--index", "-"],
    &["changes", "--symbol", "ZT"],
    &["audit", "--second"],
    &["export"],
    &["plot", "--symbol", "ZT", "-o", "out.svg"],
    &["report", "-o", "out.html"],
    &[
        "try", "--symbol", "ZT", "--side", "B", "--lots", "5", "--index", "-",
    ],
    &[
        "protected",
        "--symbol",
        "ZT",
        "--side",
        "B",
        "--price",
        "9.9",
        "--index",
        "-",
    ],
    &["snapshot", "--symbol", "ZT", "--index", "-"],
];

#[test]
fn every_command_on_a_cut_recording() {
    let folder = folder("cut");
    let day = command::sample::recording();
    fs::write(folder.join("cut.log"), &day[..day.len() - 1]).expect("a recording");
    for words in COMMANDS {
        let words = [&words[..1], &["cut.log"], &words[1..]].concat();
        let ran = run_in(&folder, &words);
        assert_eq!(ran.status, 3, "{words:?}: {}", ran.errors);
        assert!(
            ran.errors.contains("ends inside the record at byte"),
            "{}",
            ran.errors
        );
        assert!(
            !ran.output.is_empty(),
            "{words:?}: what stands before is shown"
        );
    }
}

/// A record's end is a whole recording; anything else is 3, and what stands before is counted.
#[test]
fn cut_anywhere() {
    let folder = folder("anywhere");
    let day = command::sample::recording();
    let ends: Vec<usize> = Records::new(&day)
        .map(|record| record.next as usize)
        .collect();
    let near = ends
        .iter()
        .step_by(60)
        .flat_map(|&end| [end - 1, end, end + 1, end + 16, end + 17]);
    for len in near.chain(0..20).filter(|&len| len <= day.len()) {
        fs::write(folder.join("cut.log"), &day[..len]).expect("a recording");
        let ran = run_in(&folder, &["info", "cut.log", "--json"]);
        let is_whole = len == 16 || ends.contains(&len);
        assert_eq!(
            ran.status,
            if is_whole { 0 } else { 3 },
            "{len} bytes: {}",
            ran.errors
        );
        let whole = ends.iter().filter(|&&end| end <= len).count();
        if len >= 16 {
            let counted = format!("\"what\":\"records\",\"value\":{whole}}}");
            assert!(ran.output.contains(&counted), "{len} bytes: {}", ran.output);
        }
    }
}

#[test]
fn a_byte_altered() {
    let folder = folder("altered");
    let day = command::sample::recording();
    for at in (0..16).chain((16..day.len()).step_by(day.len() / 60)) {
        let mut bytes = day.clone();
        bytes[at] ^= 4;
        fs::write(folder.join("bad.log"), &bytes).expect("a recording");
        let ran = run_in(&folder, &["audit", "bad.log"]);
        assert_eq!(ran.status, 3, "byte {at}: {}", ran.errors);
    }
    // A head of a book that there is none of.
    let mut head = quotebook::log::Head::new(65).to_bytes().to_vec();
    head.extend(&day[16..]);
    fs::write(folder.join("bad.log"), &head).expect("a recording");
    assert_eq!(run_in(&folder, &["info", "bad.log"]).status, 3);
}

#[test]
fn lost_output() {
    let folder = sample();
    let full = || fs::OpenOptions::new().write(true).open("/dev/full");
    for words in COMMANDS {
        let words = [&words[..1], &["day.log"], &words[1..]].concat();
        let Ok(full) = full() else {
            println!("no /dev/full here");
            break;
        };
        let ran = command()
            .args(&words)
            .current_dir(&folder)
            .stdout(full)
            .output();
        assert_eq!(ran.expect("a command").status.code(), Some(4), "{words:?}");
    }
    // A reader that goes away.
    let mut child = command()
        .args(["replay", "day.log", "--json"])
        .current_dir(&folder)
        .stdout(Stdio::piped())
        .stderr(Stdio::null())
        .spawn()
        .expect("a command");
    drop(child.stdout.take());
    assert_eq!(child.wait().expect("an end").code(), Some(4));
    // Files that cannot be written.
    for words in [
        &["plot", "day.log", "--symbol", "ZT", "-o", "no/folder.svg"][..],
        &["report", "day.log", "-o", "no/folder.html"],
        &["export", "day.log", "-o", "no/folder.csv"],
        &["snapshot", "day.log", "--symbol", "ZT", "-o", "no/folder"],
        &["report", "day.log", "-o", "/dev/full"],
        &["export", "day.log", "-o", "/dev/full"],
        &["plot", "day.log", "--symbol", "ZT", "-o", "/dev/full"],
    ] {
        assert_eq!(run_in(&folder, words).status, 4, "{words:?}");
    }
}
