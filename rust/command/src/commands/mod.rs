//! The commands.

mod at;
mod audit;
mod capture;
mod changes;
mod difference;
mod export;
mod health;
mod info;
mod plot;
mod query;
mod record;
mod replay;
mod report;

use std::io::Write;

use quotebook::{Code, Number};

use crate::args::Arguments;
use crate::fault::{Fault, Outcome};
use crate::message::{symbol_of_text, symbol_text, Symbol};
use crate::recording::Recording;

/// Runs a command.
pub fn run(arguments: &Arguments, output: &mut dyn Write) -> Result<Outcome, Fault> {
    if arguments.command == "record" {
        return record::run(arguments, output);
    }
    let mut recording = Recording::open(arguments)?;
    let recording = &mut recording;
    let outcome = match arguments.command {
        "info" => info::run(arguments, recording, output),
        "health" => health::run(arguments, recording, output),
        "replay" => replay::run(arguments, recording, output),
        "at" => at::run(arguments, recording, output),
        "audit" => audit::run(arguments, recording, output),
        "changes" => changes::run(arguments, recording, output),
        "export" => export::run(arguments, recording, output),
        "plot" => plot::run(arguments, recording, output),
        "report" => report::run(arguments, recording, output),
        "try" | "protected" | "snapshot" | "convert" => query::run(arguments, recording, output),
        other => Fault::usage(format!("there is no command {other}")),
    }?;
    recording.damage()?;
    Ok(outcome)
}

/// The symbol that the command was given.
fn symbol(arguments: &Arguments) -> Result<Symbol, Fault> {
    let text = arguments.need("--symbol")?;
    symbol_of_text(text)
        .ok_or_else(|| Fault::Usage(format!("{text}: a symbol has at most 11 letters")))
}

/// The place of a symbol among those that are listed.
fn place_of(symbol: &Symbol, listed: &[Symbol]) -> Result<usize, Fault> {
    let place = listed.iter().position(|listed| listed == symbol);
    place.ok_or_else(|| {
        let known: Vec<String> = listed.iter().map(|symbol| symbol_text(symbol)).collect();
        let symbol = symbol_text(symbol);
        Fault::Usage(format!(
            "{symbol} is not listed at this time; listed are: {}",
            known.join(" ")
        ))
    })
}

/// A time that was given, or another.
fn time(
    arguments: &Arguments,
    recording: &Recording,
    name: &str,
    other: u64,
) -> Result<u64, Fault> {
    let text = arguments.get(name);
    text.map_or(Ok(other), |text| recording.clock.parse(text))
}

/// What became of a message, in words.
pub fn code_text(code: u8, is_in_force: bool) -> String {
    match (code, is_in_force) {
        (0, _) => "accepted".to_string(),
        (_, true) => format!("partly accepted, {code}: {}", code_sentence(code)),
        (_, false) => format!("rejected, {code}: {}", code_sentence(code)),
    }
}

fn code_sentence(code: u8) -> &'static str {
    Code::try_from(code).map_or("", Code::sentence)
}

fn number_sentence(number: u8) -> &'static str {
    Number::try_from(number).map_or("", Number::sentence)
}
