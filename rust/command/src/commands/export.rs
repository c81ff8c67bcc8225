//! `export`: rows for other programs.

use std::fs::File;
use std::io::{BufWriter, Write};
use std::ops::ControlFlow;

use quotebook::log::Call;

use super::symbol;
use crate::args::Arguments;
use crate::clock::Clock;
use crate::entries::decoded;
use crate::fault::{Fault, Outcome};
use crate::message::{number, symbol_of, symbol_text, time_of, Kind, OddPart, Symbol};
use crate::play::Player;
use crate::recording::{Played, Recording};
use crate::router::entry_cells;
use crate::row;
use crate::table::{Cell, Form, Table};

/// The tables that can be exported, with their columns.
const TABLES: &[(&str, &[&str])] = &[
    ("best", BEST),
    ("messages", MESSAGES),
    ("blocks", BLOCKS),
    ("quotes", QUOTES),
    ("levels", LEVELS),
];

/// Every change of a symbol's entries: all six behind the message. A router's log may have these columns.
const BEST: &[&str] = &[
    "record",
    "message",
    "time",
    "symbol",
    "nb_name",
    "nb_condition",
    "nb_price",
    "nb_size",
    "nb_ahead",
    "no_name",
    "no_condition",
    "no_price",
    "no_size",
    "no_ahead",
    "fb_name",
    "fb_price",
    "fb_size",
    "fo_name",
    "fo_price",
    "fo_size",
    "ob_name",
    "ob_price",
    "ob_size",
    "oo_name",
    "oo_price",
    "oo_size",
];
/// Every message of a taken block.
const MESSAGES: &[&str] = &[
    "record", "message", "time", "line", "sequence", "letter", "type", "symbol", "stamp", "code",
    "flags",
];
/// Every block.
const BLOCKS: &[&str] = &[
    "record", "time", "line", "sequence", "bytes", "number", "gap", "expected", "count",
    "accepted", "partly", "rejected",
];
/// Every quote that came into force.
const QUOTES: &[&str] = &[
    "record",
    "message",
    "time",
    "line",
    "sequence",
    "symbol",
    "letter",
    "maker",
    "condition",
    "bid_price",
    "bid_size",
    "offer_price",
    "offer_size",
    "stamp",
];
/// Every item of an odd part that came into force, and every clear mark.
const LEVELS: &[&str] = &[
    "record", "message", "time", "line", "sequence", "symbol", "letter", "side", "price", "shares",
    "stamp",
];

pub fn run(
    arguments: &Arguments,
    recording: &mut Recording,
    output: &mut dyn Write,
) -> Result<Outcome, Fault> {
    let what = arguments.get("--what").unwrap_or("best");
    let Some(&(name, columns)) = TABLES.iter().find(|(name, _)| *name == what) else {
        return Fault::usage(format!("{what}: best, messages, blocks, quotes or levels"));
    };
    let form = match arguments.get("--format").unwrap_or("csv") {
        "csv" => Form::Csv,
        "jsonl" => Form::Jsonl,
        other => return Fault::usage(format!("{other}: csv or jsonl")),
    };
    let wanted = match arguments.has("--symbol") {
        true => Some(symbol(arguments)?),
        false => None,
    };
    let mut file = None;
    let output = match arguments.get("-o") {
        Some(path) => file.insert(BufWriter::new(File::create(path)?)),
        None => output,
    };
    let clock = recording.clock;
    let mut table = Table::new(output, form, name, columns)?;
    let mut player = Player::new(recording.head.n, name == "best");
    recording.play(&mut player, 0, u64::MAX, |played| {
        let rows = match name {
            "best" => best(played, &clock, wanted.as_ref()),
            "blocks" => block(played, &clock),
            _ => messages(name, played, &clock, wanted.as_ref()),
        };
        rows.into_iter().try_for_each(|row| table.row(row))?;
        Ok(ControlFlow::Continue(()))
    })?;
    table.end()?;
    output.flush()?;
    Ok(Outcome::Agreed)
}

fn best(played: &Played, clock: &Clock, wanted: Option<&Symbol>) -> Vec<Vec<Cell>> {
    let mut rows = Vec::new();
    for change in &played.player.changes {
        if wanted.is_some_and(|wanted| *wanted != change.name) {
            continue;
        }
        let time = clock.show(played.record.time);
        let mut row = row![
            played.index,
            change.message,
            time,
            symbol_text(&change.name)
        ];
        row.extend(
            decoded(&change.after)
                .into_iter()
                .enumerate()
                .flat_map(entry_cells),
        );
        rows.push(row);
    }
    rows
}

fn block(played: &Played, clock: &Clock) -> Vec<Vec<Cell>> {
    let (Call::TakeBlock { line, block, .. }, Some(report)) =
        (played.record.call, played.player.done.report)
    else {
        return Vec::new();
    };
    let sequence = block.get(4..8).map(|_| number(block, 4, 4));
    let time = clock.show(played.record.time);
    let mut row = row![played.index, time, line, sequence, block.len()];
    row.extend(report.fields().map(Cell::from));
    vec![row]
}

/// The rows of a block's messages.
fn messages(name: &str, played: &Played, clock: &Clock, wanted: Option<&Symbol>) -> Vec<Vec<Cell>> {
    let Call::TakeBlock { line, block, .. } = played.record.call else {
        return Vec::new();
    };
    let mut rows = Vec::new();
    for (i, worked) in played.player.messages.iter().enumerate() {
        let message = &block[worked.start..worked.end];
        let symbol = symbol_of(message);
        if wanted.is_some_and(|wanted| symbol != Some(&wanted[..])) {
            continue;
        }
        let kind = Kind::of(message);
        let symbol = symbol.map(symbol_text);
        let letter = message[2].escape_ascii().to_string();
        let time = clock.show(played.record.time);
        let stamp = time_of(message);
        let place = || row![played.index, i, time.as_str(), line, worked.sequence];
        let mut row = place();
        match name {
            "messages" => {
                row.extend(row![
                    letter,
                    kind.name(),
                    symbol,
                    stamp,
                    worked.code,
                    worked.flags
                ]);
                rows.push(row);
            }
            "quotes" => {
                let is_quote = matches!(kind, Kind::RoundLot | Kind::Maker);
                if is_quote && worked.is_in_force {
                    let maker = message.get(56..60).filter(|_| kind == Kind::Maker);
                    let condition = message[31].escape_ascii().to_string();
                    row.extend(row![symbol, letter, maker.map(symbol_text), condition]);
                    row.extend(row![
                        Cell::Price(number(message, 32, 8)),
                        number(message, 40, 4),
                        Cell::Price(number(message, 44, 8)),
                        number(message, 52, 4),
                        stamp,
                    ]);
                    rows.push(row);
                }
            }
            _ => {
                let Some(part) = OddPart::of(message).filter(|_| worked.code == 0) else {
                    continue;
                };
                for (side, text) in [(0, "bid"), (1, "offer")] {
                    if part.clears(side) {
                        let mut row = place();
                        let what = format!("{text} cleared");
                        row.extend(row![symbol.clone(), letter.as_str(), what]);
                        row.extend(row![Cell::None, Cell::None, stamp]);
                        rows.push(row);
                    }
                }
                for item in &part.items {
                    let side = ["bid", "offer"][item.side];
                    let mut row = place();
                    row.extend(row![symbol.clone(), letter.as_str(), side]);
                    row.extend(row![Cell::Price(item.price), item.shares, stamp]);
                    rows.push(row);
                }
            }
        }
    }
    rows
}
