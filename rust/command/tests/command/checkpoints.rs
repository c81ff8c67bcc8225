//! Checkpoints: `at` tells the same with them and without, and never trusts one that does not fit.

use std::fs;
use std::path::Path;

use crate::support::{folder, run_in};

const TIMES: [&str; 6] = ["09:25", "09:40", "10:30:01", "11:05", "13:06", "16:00"];

/// What `at` tells at each time, with this file of checkpoints.
fn told(folder: &Path, index: &str) -> Vec<String> {
    told_at(&TIMES, folder, index)
}

fn told_at(times: &[&str], folder: &Path, index: &str) -> Vec<String> {
    let told = times.iter().map(|time| {
        let at = ["at", "day.log", "--symbol", "ZT", "--why", "--time", time];
        let ran = run_in(
            folder,
            &[&at[..], &["--every", "50", "--index", index]].concat(),
        );
        assert_eq!(ran.status, 0, "{}", ran.errors);
        ran.output
    });
    told.collect()
}

#[test]
fn with_and_without() {
    let folder = folder("with");
    fs::write(folder.join("day.log"), command::sample::recording()).expect("a recording");
    let without = told(&folder, "-");
    let with = folder.join("day.index");
    // The first time they are written, then they are there.
    assert_eq!(told(&folder, "day.index"), without);
    let written = fs::read(&with).expect("checkpoints");
    assert_eq!(told(&folder, "day.index"), without);
    assert_eq!(
        fs::read(&with).expect("checkpoints"),
        written,
        "nothing is written twice"
    );
    // What stands before a checkpoint is not read again: a recording with a damaged beginning tells the
    // same behind it.
    let mut day = fs::read(folder.join("day.log")).expect("a recording");
    let first = 8 + 16 + 8;
    let place =
        u64::from_be_bytes(written[first..first + 8].try_into().expect("eight bytes")) as usize;
    day[40] ^= 1;
    fs::write(folder.join("day.log"), &day).expect("a recording");
    assert!(place > 41);
    assert_eq!(told_at(&TIMES[2..], &folder, "day.index"), without[2..]);
}

#[test]
fn one_that_does_not_fit() {
    let folder = folder("fit");
    let day = command::sample::recording();
    fs::write(folder.join("day.log"), &day).expect("a recording");
    let without = told(&folder, "-");
    told(&folder, "day.index");
    let written = fs::read(folder.join("day.index")).expect("checkpoints");
    for at in (0..written.len()).step_by(written.len() / 40) {
        let mut bytes = written.clone();
        bytes[at] ^= 1;
        fs::write(folder.join("day.index"), &bytes).expect("checkpoints");
        assert_eq!(told(&folder, "day.index"), without, "byte {at} altered");
        fs::write(folder.join("day.index"), &written[..at]).expect("checkpoints");
        assert_eq!(told(&folder, "day.index"), without, "cut at {at}");
    }
    // Of another recording: the same calls at other times, each with its own check.
    let mut other = quotebook::log::Head::new(3).to_bytes().to_vec();
    for record in quotebook::log::Records::new(&day) {
        record.call.write(record.time + 1, &mut other);
    }
    fs::write(folder.join("day.log"), &other).expect("a recording");
    fs::write(folder.join("day.index"), &written).expect("checkpoints");
    assert_eq!(told(&folder, "day.index"), told(&folder, "-"));
}

#[test]
fn where_none_can_be_written() {
    let folder = folder("none");
    fs::write(folder.join("day.log"), command::sample::recording()).expect("a recording");
    assert_eq!(told(&folder, "no/folder/day.index"), told(&folder, "-"));
    assert_eq!(told(&folder, "/dev/full"), told(&folder, "-"));
}

/// A recording that grew goes on from its checkpoints.
#[test]
fn a_recording_that_grows() {
    let folder = folder("grows");
    let day = command::sample::recording();
    let ends: Vec<usize> = quotebook::log::Records::new(&day)
        .map(|record| record.next as usize)
        .collect();
    fs::write(folder.join("day.log"), &day[..ends[200]]).expect("a recording");
    told(&folder, "day.index");
    fs::write(folder.join("day.log"), &day).expect("a recording");
    assert_eq!(told(&folder, "day.index"), told(&folder, "-"));
}
