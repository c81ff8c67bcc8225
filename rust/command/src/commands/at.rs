//! `at`: a symbol's six entries at a time, and why.

use std::io::Write;

use super::{place_of, symbol, time};
use crate::args::Arguments;
use crate::clock::Clock;
use crate::entries::{cells, decoded, NAMES};
use crate::fault::{Fault, Outcome};
use crate::index::{moment, Moment};
use crate::page::{Page, SIDE_NAMES};
use crate::recording::Recording;
use crate::row;
use crate::sources::Mark;
use crate::table::{Cell, Form, Table};
use crate::why::{compare, why, Candidate, Ranking, Why};

pub fn run(
    arguments: &Arguments,
    recording: &mut Recording,
    output: &mut dyn Write,
) -> Result<Outcome, Fault> {
    let symbol = symbol(arguments)?;
    let latest = time(arguments, recording, "--time", u64::MAX)?;
    let moment = moment(arguments, recording, latest)?;
    let place = place_of(&symbol, &moment.player.listed)?;
    let (clock, form) = (recording.clock, arguments.form());
    write(&moment, place, arguments.has("--why"), &clock, form, output)?;
    Ok(Outcome::Agreed)
}

/// The six entries of a symbol, and why they are what they are.
pub fn write(
    moment: &Moment,
    place: usize,
    with_reasons: bool,
    clock: &Clock,
    form: Form,
    output: &mut dyn Write,
) -> Result<(), Fault> {
    let columns = &["entry", "name", "condition", "price", "size", "ahead by"];
    let mut table = Table::new(output, form, "entries", columns)?;
    for (name, entry) in NAMES.iter().zip(decoded(&moment.player.entries(place))) {
        let mut row = row![*name];
        row.extend(cells(entry));
        if form == Form::Text && entry.is_none() {
            row[1] = "none".into();
        }
        table.row(row)?;
    }
    table.end()?;
    let Some(page) = Page::read(&moment.player.book.memory, place) else {
        return Ok(());
    };
    let source = &moment.sources.symbols[place];
    let mut table = Table::new(output, form, "symbol", &["what", "value"])?;
    table.row(row!["round lot", page.round_lot])?;
    let status = if page.is_halted {
        "halted: all six entries are none"
    } else {
        "trading"
    };
    table.row(row!["status", status])?;
    table.row(row![
        "status came by",
        source.status.map(|mark| came_by(mark, clock))
    ])?;
    let finra = moment.sources.finra.map(|mark| came_by(mark, clock));
    table.row(row!["last FINRA Close or Open", finra])?;
    table.row(row!["records carried out", moment.records])?;
    table.row(row![
        "the last at",
        moment.time.map(|time| clock.show(time))
    ])?;
    table.end()?;
    if with_reasons {
        write_why(&why(&page, source), clock, form, output)?;
    }
    Ok(())
}

const RANKED: &[&str] = &[
    "side",
    "place",
    "name",
    "condition",
    "price",
    "size",
    "time",
    "ahead of the next by",
    "line",
    "sequence",
    "record",
    "message",
    "arrived",
];
const PASSED: &[&str] = &[
    "side",
    "name",
    "condition",
    "price",
    "size",
    "why not",
    "line",
    "sequence",
    "record",
    "message",
    "arrived",
];

fn write_why(why: &Why, clock: &Clock, form: Form, output: &mut dyn Write) -> Result<(), Fault> {
    let tables = [
        (
            "national candidates",
            "not counted for the national best",
            &why.national,
        ),
        ("FINRA makers", "makers not counted", &why.finra),
        ("odd lots", "odd lots not counted", &why.odd),
    ];
    for (name, passed, rankings) in tables {
        write_ranking(name, passed, rankings, clock, form, output)?;
    }
    Ok(())
}

fn write_ranking(
    name: &'static str,
    passed: &'static str,
    rankings: &[Ranking; 2],
    clock: &Clock,
    form: Form,
    output: &mut dyn Write,
) -> Result<(), Fault> {
    let mut table = Table::new(output, form, name, RANKED)?;
    for ranking in rankings {
        for (place, candidate) in ranking.ranked.iter().enumerate() {
            let next = ranking.ranked.get(place + 1);
            let ahead = next.map(|next| compare(candidate, next).1);
            let mut row = row![SIDE_NAMES[candidate.side], place + 1];
            row.extend(shown(candidate));
            row.push(clock.show_stamp(candidate.shown.time).into());
            row.push(ahead.into());
            row.extend(mark(candidate.mark, clock));
            table.row(row)?;
        }
    }
    table.end()?;
    let mut table = Table::new(output, form, passed, PASSED)?;
    for ranking in rankings {
        for passed in &ranking.passed {
            let mut row = row![SIDE_NAMES[passed.candidate.side]];
            row.extend(shown(&passed.candidate));
            row.push(passed.why.as_str().into());
            row.extend(mark(passed.candidate.mark, clock));
            table.row(row)?;
        }
    }
    table.end()?;
    Ok(())
}

fn shown(candidate: &Candidate) -> Vec<Cell> {
    let name = candidate.name.trim_ascii_end().escape_ascii().to_string();
    let condition = candidate
        .condition
        .map(|byte| byte.escape_ascii().to_string());
    let price = Cell::Price(candidate.shown.price);
    row![name, condition, price, candidate.shown.size]
}

/// Line, sequence, record, message and arrival.
fn mark(mark: Option<Mark>, clock: &Clock) -> Vec<Cell> {
    let Some(mark) = mark else {
        return vec![Cell::None; 5];
    };
    let arrived = clock.show(mark.time);
    row![mark.line, mark.sequence, mark.record, mark.message, arrived]
}

/// A message's place in one text.
pub fn came_by(mark: Mark, clock: &Clock) -> String {
    format!(
        "line {} sequence {} (record {} message {}) at {}",
        mark.line,
        mark.sequence,
        mark.record,
        mark.message,
        clock.show(mark.time)
    )
}
