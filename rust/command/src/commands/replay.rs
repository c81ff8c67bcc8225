//! `replay`: what each call and each message did.

use std::io::Write;
use std::ops::ControlFlow;

use quotebook::log::Call;
use quotebook::Price;

use super::{code_text, number_sentence, symbol, time};
use crate::args::Arguments;
use crate::entries::flags;
use crate::fault::{Fault, Outcome};
use crate::library::{name, Done};
use crate::message::{detail, symbol_of, symbol_text, Kind};
use crate::play::Player;
use crate::recording::Recording;
use crate::row;
use crate::table::{Cell, Table};

const COLUMNS: &[&str] = &[
    "time", "record", "line", "sequence", "message", "symbol", "says", "answer", "changed",
];

pub fn run(
    arguments: &Arguments,
    recording: &mut Recording,
    output: &mut dyn Write,
) -> Result<Outcome, Fault> {
    let from = time(arguments, recording, "--from", 0)?;
    let to = time(arguments, recording, "--to", u64::MAX)?;
    let wanted = match arguments.has("--symbol") {
        true => Some(symbol(arguments)?),
        false => None,
    };
    let line_wanted = match arguments.get("--line").map(str::parse::<u32>) {
        None => None,
        Some(Ok(line)) => Some(line),
        Some(Err(_)) => return Fault::usage("--line takes a number"),
    };
    let clock = recording.clock;
    let mut table = Table::new(output, arguments.form(), "replay", COLUMNS)?;
    let mut player = Player::new(recording.head.n, false);
    recording.play(&mut player, 0, to, |played| {
        if played.record.time < from {
            return Ok(ControlFlow::Continue(()));
        }
        let done = &played.player.done;
        let at = || Cell::from(clock.show(played.record.time));
        match played.record.call {
            Call::TakeBlock { line, block, .. } => {
                if line_wanted.is_some_and(|wanted| wanted != line) {
                    return Ok(ControlFlow::Continue(()));
                }
                if done.number != 0 && wanted.is_none() {
                    let answer = match done.report {
                        Some(report) if done.number == 70 => {
                            format!("taken, 70: a gap of {}", report.gap)
                        }
                        _ => refused(done),
                    };
                    let sequence = block.get(4..8).map(|_| crate::message::number(block, 4, 4));
                    let length = format!("{} bytes", block.len());
                    table.row(row![
                        at(),
                        played.index,
                        line,
                        sequence,
                        "(block)",
                        Cell::None,
                        length,
                        answer,
                        Cell::None,
                    ])?;
                }
                for worked in &played.player.messages {
                    let message = &block[worked.start..worked.end];
                    let named = symbol_of(message);
                    let is_for_all =
                        matches!(Kind::of(message), Kind::FinraClose | Kind::FinraOpen);
                    let is_wanted = |wanted| named == Some(wanted) || is_for_all;
                    if !wanted.as_ref().is_none_or(|wanted| is_wanted(&wanted[..])) {
                        continue;
                    }
                    table.row(row![
                        at(),
                        played.index,
                        line,
                        worked.sequence,
                        Kind::of(message).name(),
                        named.map(symbol_text),
                        detail(message),
                        code_text(worked.code, worked.is_in_force),
                        flags(worked.flags),
                    ])?;
                }
            }
            call => {
                let (named, says) = says(&call);
                let concerns = wanted.as_ref().is_none_or(|wanted| match named {
                    Some(named) => named == wanted,
                    None => matches!(call, Call::Make { .. } | Call::StartDay | Call::EndDay),
                });
                if line_wanted.is_none() && concerns {
                    table.row(row![
                        at(),
                        played.index,
                        Cell::None,
                        Cell::None,
                        format!("({})", name(&call)),
                        named.map(symbol_text),
                        says,
                        told(&call, done),
                        Cell::None,
                    ])?;
                }
            }
        }
        Ok(ControlFlow::Continue(()))
    })?;
    table.end()?;
    Ok(Outcome::Agreed)
}

pub fn refused(done: &Done) -> String {
    format!("refused, {}: {}", done.number, number_sentence(done.number))
}

/// The symbol that a call names, and what else it says.
fn says<'a>(call: &Call<'a>) -> (Option<&'a [u8]>, String) {
    let mark = |byte: u8| byte.escape_ascii().to_string();
    match *call {
        Call::Make { n } => (None, format!("{n} symbols")),
        Call::AddSymbol {
            symbol,
            round_lot,
            primary,
        } => (
            Some(symbol),
            format!("round lot {round_lot}, primary {}", mark(primary)),
        ),
        Call::OpenLine { line, letter } => (None, format!("line {line} for {}", mark(letter))),
        Call::Read { symbol, .. }
        | Call::SnapshotLen { symbol }
        | Call::Snapshot { symbol, .. } => (Some(symbol), String::new()),
        Call::IsProtected {
            symbol,
            side,
            price,
        } => (
            Some(symbol),
            format!("side {}, {}", mark(side), Price(price)),
        ),
        Call::TryOrder {
            symbol, side, lots, ..
        } => (Some(symbol), format!("side {}, {lots} lots", mark(side))),
        Call::ConvertLen { block } | Call::Convert { block, .. } => {
            (None, format!("{} bytes", block.len()))
        }
        Call::SetAllowance { blocks, shares } => {
            let sum: u32 = shares.iter().map(|&share| u32::from(share)).sum();
            (None, format!("{blocks} blocks for a tick, shares of {sum}"))
        }
        _ => (None, String::new()),
    }
}

/// What a call other than a block answered.
fn told(call: &Call, done: &Done) -> String {
    if done.number != 0 {
        return refused(done);
    }
    let [first, second] = done.told;
    match call {
        Call::IsProtected { .. } if first == 1 => {
            format!("yes, by {}", (b'A' - 1 + second as u8).escape_ascii())
        }
        Call::IsProtected { .. } => "no".to_string(),
        Call::TryOrder { .. } => format!("{first} steps, {second} lots not found"),
        Call::ConvertLen { .. } | Call::Convert { .. } => format!("{second} bytes"),
        Call::SnapshotLen { .. } | Call::Snapshot { .. } => {
            format!("{first} blocks, {second} bytes")
        }
        _ => "done".to_string(),
    }
}
