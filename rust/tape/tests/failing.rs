//! Where the system does not write or read, the proved program says so on standard error. It has no
//! exit status to say it by.

mod common;

use std::fs::File;
use std::io::Write;
use std::process::Stdio;

use common::*;
use tape::{sample, Tape};

const NOT_WRITTEN: &str = "tape: the output could not be written\n";
const NOT_READ: &str = "tape: the input could not be read\n";

/// What the program says on standard error for a tape, with its output on a full device.
fn on_a_full_device(tape: &[u8]) -> Option<String> {
    let full = File::options().write(true).open("/dev/full").ok()?;
    let mut child = command()
        .stdin(Stdio::piped())
        .stdout(full)
        .stderr(Stdio::piped())
        .spawn()
        .expect("it starts");
    let mut input = child.stdin.take().expect("the input is a pipe");
    input.write_all(tape).expect("it reads");
    drop(input);
    let end = child.wait_with_output().expect("it ends");
    assert_eq!(end.status.code(), Some(0), "exit status");
    Some(String::from_utf8_lossy(&end.stderr).into_owned())
}

#[test]
fn output_that_cannot_be_written() {
    let Some(told) = on_a_full_device(&sample::tape().bytes()) else {
        println!("no /dev/full here: passed over");
        return;
    };
    assert!(told.ends_with(NOT_WRITTEN));
    // The program writes whenever it may have to wait, and says so for each write that fails.
    assert_eq!(told.replace(NOT_WRITTEN, ""), "");

    // An output of more than one buffer, cut off at the end.
    let mut long: Tape = desk();
    for _ in 0..9_000 {
        long.record(99, vec![]);
    }
    let told = on_a_full_device(&long.bytes()).expect("a full device");
    assert!(told.matches(NOT_WRITTEN).count() > 1);
    assert_eq!(told.replace(NOT_WRITTEN, ""), "");
}

/// A folder can be opened and not be read.
#[test]
fn input_that_cannot_be_read() {
    let folder = File::open(env!("CARGO_MANIFEST_DIR")).expect("a folder opens");
    let run = command().stdin(folder).output().expect("it ends");
    assert_eq!(String::from_utf8_lossy(&run.stdout), "cut\n");
    assert_eq!(String::from_utf8_lossy(&run.stderr), NOT_READ);
}
