//! The execution reviewer's command: what a recording of calls (docs/LOG.md) did to the book, in tables
//! and pictures.
//!
//! Every command reads the recording once from front to back and carries out its calls on the proved
//! library ([`play`]); it holds what is known of symbols and lines, never what grows with the recording.
//! Tables are described once and written in any form ([`table`]).

#![forbid(unsafe_code)]

pub mod args;
mod clock;
mod commands;
mod day;
mod entries;
mod fault;
mod index;
mod library;
mod message;
mod page;
mod play;
mod progress;
mod recording;
mod router;
pub mod sample;
mod sources;
mod svg;
pub mod table;
mod why;

use std::io::{self, BufWriter, Write};

use args::Arguments;
use fault::Fault;

/// Does what the words of a command line ask for, and tells the exit status.
pub fn run(words: &[String]) -> u8 {
    let mut output = BufWriter::new(io::stdout().lock());
    let done = run_to(words, &mut output).and_then(|status| {
        output.flush()?;
        Ok(status)
    });
    match done {
        Ok(status) => status,
        Err(fault) => {
            // What was worked out before a recording's damage is shown all the same.
            let lost = output.flush().is_err();
            let _ = writeln!(io::stderr(), "quotebook: {fault}");
            match fault {
                Fault::Damaged(_) if lost => 4,
                fault => fault.status(),
            }
        }
    }
}

fn run_to(words: &[String], output: &mut dyn Write) -> Result<u8, Fault> {
    match Arguments::parse(words)? {
        None => {
            write!(output, "{}", args::help())?;
            Ok(0)
        }
        Some(arguments) => commands::run(&arguments, output).map(fault::Outcome::status),
    }
}
