//! Writes the sample recording, and the log of a router that had the accident's mistake.
//!
//! `cargo run --release -p quotebook-command --example sample -- day.log router.csv`

use std::error::Error;
use std::fs;

fn main() -> Result<(), Box<dyn Error>> {
    let paths: Vec<String> = std::env::args().skip(1).collect();
    let [recording, router] = paths.as_slice() else {
        return Err("two files: the recording and the router's log".into());
    };
    let day = command::sample::recording();
    fs::write(recording, &day)?;
    fs::write(router, command::sample::router_log(&day))?;
    Ok(())
}
