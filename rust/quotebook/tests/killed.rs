//! A recording process is killed at random places: what is restored equals what an uninterrupted run has
//! after the calls that the log holds, byte for byte. `make kills` does it a thousand times.

mod support;

use std::env;
use std::path::{Path, PathBuf};
use std::process::{Command, Stdio};

use support::killing;

const KILLS: u64 = 50;
/// Names the folder of a process to be killed.
const FOLDER: &str = "QUOTEBOOK_KILLED_FOLDER";
const SEED: &str = "QUOTEBOOK_KILLED_SEED";

/// Does nothing unless it runs in a process that the other test started.
#[test]
fn recording_process() {
    if let (Some(folder), Ok(seed)) = (env::var_os(FOLDER), env::var(SEED)) {
        killing::process(&PathBuf::from(folder), seed.parse().expect("a seed"));
    }
}

#[test]
fn killed() {
    let command = |folder: &Path, seed: u64| {
        let mut command = Command::new(env::current_exe().expect("this program"));
        command
            .args(["recording_process", "--exact"])
            .env(FOLDER, folder)
            .env(SEED, seed.to_string())
            .stdout(Stdio::null());
        command
    };
    let met = killing::run(KILLS, 1, command);
    println!("{met:?}");
    assert!(met.cut > 0 && met.whole > 0, "{met:?}");
}
