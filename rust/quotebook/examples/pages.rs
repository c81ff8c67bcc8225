//! Damaged pages against a plain walk of every quote, for as long as one likes.
//!
//! usage: pages [PAGES [FIRST_SEED]], by default 200,000 from seed 1 on. Each page has a seed of its own.

#[path = "../tests/support/mod.rs"]
mod support;

use std::process::ExitCode;
use std::time::Instant;

use support::pages::run;

fn argument(at: usize) -> Option<u64> {
    let word = std::env::args().nth(at)?;
    Some(word.parse().expect("the arguments are numbers"))
}

fn main() -> ExitCode {
    let pages = argument(1).unwrap_or(200_000);
    let first = argument(2).unwrap_or(1);
    println!("{pages} damaged pages, from seed {first} on");
    let began = Instant::now();
    match run(pages, first) {
        Ok(met) => println!("{met}"),
        Err(difference) => {
            println!("{difference}");
            return ExitCode::FAILURE;
        }
    }
    println!("no difference, {:.0} s", began.elapsed().as_secs_f64());
    ExitCode::SUCCESS
}
