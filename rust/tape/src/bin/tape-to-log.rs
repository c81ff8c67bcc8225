//! Turns a tape into the log of the calls that the tape program makes on it (docs/LOG.md):
//! `tape-to-log < TAPE > LOG`.

#![forbid(unsafe_code)]

use std::error::Error;
use std::io::{self, Read, Write};

use tape::program;

fn main() -> Result<(), Box<dyn Error>> {
    let mut tape = Vec::new();
    io::stdin().read_to_end(&mut tape)?;
    let log = program::log(&tape).ok_or("the tape program makes no book of this tape")?;
    io::stdout().write_all(&log)?;
    Ok(())
}
