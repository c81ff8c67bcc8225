//! Compares the library with the second implementation for as long as one likes, the writer too.
//!
//! usage: fuzz [CALLS [FIRST_SEED]], by default a million calls from a seed that the clock gives.

#[path = "../tests/support/mod.rs"]
mod support;

use std::process::ExitCode;
use std::time::{Duration, Instant, SystemTime, UNIX_EPOCH};

use second::coverage::Coverage;
use second::writer::reached::Reached;
use support::compared::{run, write_calls, CALLS};

fn argument(at: usize) -> Option<u64> {
    let word = std::env::args().nth(at)?;
    Some(word.parse().expect("the arguments are numbers"))
}

/// A seed that no earlier run had: the microseconds of the clock.
fn new_seed() -> u64 {
    let now = SystemTime::now().duration_since(UNIX_EPOCH);
    now.map_or(0, |since| since.as_micros() as u64)
}

fn main() -> ExitCode {
    let calls = argument(1).unwrap_or(1_000_000);
    let first = argument(2).unwrap_or_else(new_seed);
    println!("{calls} calls on the library, the engine and the reviewer, from seed {first} on");
    let mut coverage = Coverage::default();
    let mut reached = Reached::default();
    let began = Instant::now();
    let mut told = began;
    for seed in (first..).take(calls.div_ceil(CALLS as u64) as usize) {
        let failed = run(seed, &mut coverage).and_then(|()| write_calls(seed, &mut reached));
        if let Err(failure) = failed {
            println!("{failure}");
            return ExitCode::FAILURE;
        }
        if told.elapsed() > Duration::from_secs(10) {
            told = Instant::now();
            tell(&coverage, began);
        }
    }
    println!("{coverage}\n{reached}");
    let mut missing = coverage.missing();
    missing.extend(reached.missing().into_iter().map(String::from));
    if !missing.is_empty() {
        println!("not reached: {}", missing.join(", "));
    }
    tell(&coverage, began);
    println!("no difference");
    ExitCode::SUCCESS
}

fn tell(coverage: &Coverage, began: Instant) {
    let seconds = began.elapsed().as_secs_f64();
    let calls = coverage.calls();
    println!(
        "{calls} calls in {seconds:.0} s, {:.0} a second",
        calls as f64 / seconds
    );
}
