//! `try`, `protected`, `snapshot` and `convert`: the calls of the same names on the book at a time.

use std::fs;
use std::io::Write;

use quotebook::log::Call;
use quotebook::snapshot::{Snapshot, SNAPSHOT_MAX};
use quotebook::{Price, Step};

use super::replay::refused;
use super::{symbol, time};
use crate::args::Arguments;
use crate::fault::{Fault, Outcome};
use crate::index::{moment, Moment};
use crate::library::{carry_out, Done};
use crate::message::{detail, number, parts, symbol_of, symbol_text, Kind};
use crate::page::Page;
use crate::recording::Recording;
use crate::row;
use crate::table::{Cell, Form, Table};

pub fn run(
    arguments: &Arguments,
    recording: &mut Recording,
    output: &mut dyn Write,
) -> Result<Outcome, Fault> {
    let latest = time(arguments, recording, "--time", u64::MAX)?;
    let form = arguments.form();
    match arguments.command {
        "try" => {
            let symbol = symbol(arguments)?;
            let lots = match arguments.need("--lots")?.parse() {
                Ok(lots) => lots,
                Err(_) => return Fault::usage("--lots takes a number"),
            };
            let call = Call::TryOrder {
                symbol: &symbol,
                side: side(arguments)?,
                lots,
                room: u64::MAX,
            };
            let mut moment = moment(arguments, recording, latest)?;
            let done = carry_out(&mut moment.player.book, &call);
            write_trial(&moment, &symbol, lots, &accepted(done)?, form, output)?;
        }
        "protected" => {
            let symbol = symbol(arguments)?;
            let text = arguments.need("--price")?;
            let Ok(price) = text.parse::<Price>() else {
                return Fault::usage(format!("{text} is no price"));
            };
            let side = side(arguments)?;
            let call = Call::IsProtected {
                symbol: &symbol,
                side,
                price: price.0,
            };
            let mut moment = moment(arguments, recording, latest)?;
            let done = accepted(carry_out(&mut moment.player.book, &call))?;
            let [yes, looked] = done.told;
            let by = (yes == 1).then(|| (b'A' - 1 + looked as u8).escape_ascii().to_string());
            let asked = match side {
                b'B' => format!("does anyone bid {price} or more?"),
                _ => format!("does anyone offer at {price} or less?"),
            };
            let columns = &["question", "answer", "by", "letters looked at"];
            let mut table = Table::new(output, form, "protected", columns)?;
            let answer = if yes == 1 { "yes" } else { "no" };
            table.row(row![asked, answer, by, looked])?;
            table.end()?;
        }
        "snapshot" => {
            let symbol = symbol(arguments)?;
            let call = Call::Snapshot {
                symbol: &symbol,
                room: SNAPSHOT_MAX as u64,
            };
            let mut moment = moment(arguments, recording, latest)?;
            let done = accepted(carry_out(&mut moment.player.book, &call))?;
            write_file(arguments, &done.filled)?;
            write_snapshot(&done, form, output)?;
        }
        _ => {
            let path = arguments.need("--block")?;
            let block = fs::read(path).map_err(|error| Fault::Usage(format!("{path}: {error}")))?;
            let call = Call::Convert {
                block: &block,
                room: u64::MAX,
            };
            let mut moment = moment(arguments, recording, latest)?;
            let done = accepted(carry_out(&mut moment.player.book, &call))?;
            write_file(arguments, &done.filled)?;
            write_run(&done, form, output)?;
        }
    }
    Ok(Outcome::Agreed)
}

/// A call that the book refuses was asked for wrongly.
fn accepted(done: Done) -> Result<Done, Fault> {
    match done.number {
        0 => Ok(done),
        _ => Fault::usage(refused(&done)),
    }
}

/// B or S, or what an order does.
fn side(arguments: &Arguments) -> Result<u8, Fault> {
    match arguments.need("--side")?.to_ascii_lowercase().as_str() {
        "b" | "buy" | "bid" | "bids" => Ok(b'B'),
        "s" | "sell" | "offer" | "offers" => Ok(b'S'),
        other => Fault::usage(format!("--side {other}: B or S")),
    }
}

fn write_file(arguments: &Arguments, bytes: &[u8]) -> Result<(), Fault> {
    match arguments.get("-o") {
        Some(path) => Ok(fs::write(path, bytes)?),
        None => Ok(()),
    }
}

fn write_trial(
    moment: &Moment,
    symbol: &[u8],
    lots: u32,
    done: &Done,
    form: Form,
    output: &mut dyn Write,
) -> Result<(), Fault> {
    let (steps, _) = done.filled.as_chunks();
    let mut table = Table::new(output, form, "steps", &["step", "letter", "price", "lots"])?;
    let (mut filled, mut total) = (0u128, 0u128);
    for (i, step) in steps.iter().map(Step::from_bytes).enumerate() {
        filled += u128::from(step.lots);
        total += u128::from(step.lots) * u128::from(step.price.0);
        let letter = step.letter.escape_ascii().to_string();
        table.row(row![i + 1, letter, step.price, step.lots])?;
    }
    table.end()?;
    let place = moment
        .player
        .listed
        .iter()
        .position(|listed| listed == symbol);
    let page = place.and_then(|place| Page::read(&moment.player.book.memory, place));
    let mut table = Table::new(output, form, "order", &["what", "value"])?;
    table.row(row!["lots wanted", lots])?;
    table.row(row!["lots not found", done.told[1]])?;
    if let Some(page) = page.filter(|_| filled > 0) {
        let average = (2 * total + filled) / (2 * filled);
        table.row(row!["average price", Cell::Price(average as u64)])?;
        let money = total * u128::from(page.round_lot);
        let text = format!("{}.{:06}", money / 1_000_000, money % 1_000_000);
        table.row(row!["money for the shares", text])?;
    }
    table.end()?;
    Ok(())
}

fn write_snapshot(done: &Done, form: Form, output: &mut dyn Write) -> Result<(), Fault> {
    let decoded = Snapshot::from_bytes(&done.filled).expect("the library writes snapshots");
    let mut table = Table::new(output, form, "snapshot", &["what", "value"])?;
    table.row(row!["symbol", symbol_text(decoded.symbol.as_ref())])?;
    table.row(row!["blocks", done.told[0]])?;
    table.row(row!["bytes", done.told[1]])?;
    let entries = [
        ("national bid", decoded.national_bid),
        ("national offer", decoded.national_offer),
        ("FINRA bid", decoded.finra_bid),
        ("FINRA offer", decoded.finra_offer),
    ];
    for (what, entry) in entries {
        table.row(row![what, crate::entries::text(entry)])?;
    }
    table.end()?;
    let columns = &[
        "letter",
        "condition",
        "bid",
        "bid size",
        "offer",
        "offer size",
    ];
    let mut table = Table::new(output, form, "letters", columns)?;
    for quote in &decoded.letters {
        let letter = quote.letter.escape_ascii().to_string();
        let condition = quote.condition.escape_ascii().to_string();
        let bid = row![quote.bid, quote.bid_size];
        let offer = row![quote.offer, quote.offer_size];
        table.row([row![letter, condition], bid, offer].concat())?;
    }
    table.end()?;
    Ok(())
}

/// The messages of a run of blocks.
fn write_run(done: &Done, form: Form, output: &mut dyn Write) -> Result<(), Fault> {
    let columns = &["block", "sequence", "message", "symbol", "says"];
    let mut table = Table::new(output, form, "run", columns)?;
    let mut left = &done.filled[..];
    let mut at = 0;
    while let Some(len) = left.get(2..4) {
        let (block, rest) = left.split_at(usize::from(u16::from_be_bytes([len[0], len[1]])));
        let first = number(block, 4, 4);
        for (i, (start, end)) in (0..).zip(parts(block)) {
            let message = &block[start..end];
            let symbol = symbol_of(message).map(symbol_text);
            let kind = Kind::of(message).name();
            table.row(row![at, first + i, kind, symbol, detail(message)])?;
        }
        left = rest;
        at += 1usize;
    }
    table.end()?;
    Ok(())
}
