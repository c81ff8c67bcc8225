//! Shows what the tape program printed for a tape: `tape < TAPE | show TAPE`.

#![forbid(unsafe_code)]

use std::error::Error;
use std::io::{self, Read, Write};

use tape::output::{NoOutput, Output};
use tape::show::tables;
use tape::Tape;

fn main() -> Result<(), Box<dyn Error>> {
    let path = std::env::args().nth(1).ok_or("usage: show TAPE")?;
    let tape = Tape::read(&std::fs::read(&path)?).ok_or("this is not a whole tape")?;
    let mut text = String::new();
    io::stdin().read_to_string(&mut text)?;
    let output: Output = text
        .parse()
        .map_err(|NoOutput(line)| format!("not a line of the tape program: {line}"))?;
    io::stdout().write_all(tables(&tape, &output).as_bytes())?;
    Ok(())
}
