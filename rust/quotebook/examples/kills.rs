//! Kills a recording process at random places, again and again, and checks what is restored each time.
//!
//! usage: kills [KILLS [SEED]], by default a thousand.

#[path = "../tests/support/mod.rs"]
mod support;

use std::env;
use std::path::{Path, PathBuf};
use std::process::Command;
use std::time::Instant;

use support::killing;

fn main() {
    let words: Vec<String> = env::args().skip(1).collect();
    let number = |word: &String| word.parse().expect("the arguments are numbers");
    // the process that is killed
    if let [first, folder, seed] = &words[..] {
        assert_eq!(first, "--process");
        return killing::process(&PathBuf::from(folder), number(seed));
    }
    let kills = words.first().map_or(1000, number);
    let seed = words.get(1).map_or(0, number);
    let began = Instant::now();
    let met = killing::run(kills, seed, |folder: &Path, seed| {
        let mut command = Command::new(env::current_exe().expect("this program"));
        command.arg("--process").arg(folder).arg(seed.to_string());
        command
    });
    println!("{met:?}");
    println!("no difference, {:.0} s", began.elapsed().as_secs_f64());
}
