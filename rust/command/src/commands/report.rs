//! `report`: one HTML file with tables, search and charts. Nothing is fetched from a network.

use std::fs::File;
use std::io::{BufWriter, Write};
use std::ops::ControlFlow;

use quotebook::log::Call;

use super::health::{self, Health};
use super::info::Info;
use super::{code_text, time};
use crate::args::Arguments;
use crate::day::Day;
use crate::entries::{bytes, decoded, text, NAMES};
use crate::fault::{Fault, Outcome};
use crate::message::{detail, symbol_text, Kind};
use crate::play::Player;
use crate::recording::{Played, Recording};
use crate::row;
use crate::svg::{draw, escape};
use crate::table::{Cell, Form, Table};

const STYLE: &str = include_str!("../report/style.css");
const SCRIPT: &str = include_str!("../report/script.js");

/// More rows of a symbol than this are counted only; `changes` and `replay` list them.
const ROWS: usize = 400;

const CHANGES: &[&str] = &[
    "time", "entry", "before", "behind", "record", "line", "sequence", "says",
];
const REJECTED: &[&str] = &[
    "time", "record", "line", "sequence", "message", "says", "answer",
];

/// What is shown of a symbol.
struct Section {
    day: Day,
    changes: Vec<Vec<Cell>>,
    changes_left: u64,
    rejected: Vec<Vec<Cell>>,
    rejected_left: u64,
}

pub fn run(
    arguments: &Arguments,
    recording: &mut Recording,
    output: &mut dyn Write,
) -> Result<Outcome, Fault> {
    let path = arguments.need("-o")?;
    let from = time(arguments, recording, "--from", 0)?;
    let to = time(arguments, recording, "--to", u64::MAX)?;
    let clock = recording.clock;
    let mut player = Player::new(recording.head.n, true);
    let (mut info, mut health) = (Info::new(), Health::new());
    let mut sections: Vec<Section> = Vec::new();
    recording.play(&mut player, 0, to, |played| {
        info.note(played);
        health.note(played);
        for (place, symbol) in played.player.listed.iter().enumerate().skip(sections.len()) {
            sections.push(Section {
                day: Day::new(symbol_text(symbol), place, from),
                changes: Vec::new(),
                changes_left: 0,
                rejected: Vec::new(),
                rejected_left: 0,
            });
        }
        for (place, section) in sections.iter_mut().enumerate() {
            section.day.note(played, &clock);
            if played.record.time >= from {
                section.note(place, played, &clock.show(played.record.time));
            }
        }
        Ok(ControlFlow::Continue(()))
    })?;
    let mut page = BufWriter::new(File::create(path)?);
    let title = escape(&arguments.recording);
    writeln!(
        page,
        "<!DOCTYPE html>\n<html lang=\"en\"><head><meta charset=\"utf-8\"><title>{title}</title>\n\
         <style>{STYLE}</style></head>\n<body>\n<h1>{title}</h1>\n\
         <p><label>Search <input id=\"search\" type=\"search\" placeholder=\"words of a row\"></label> \
         <span id=\"found\"></span></p>\n<nav>{}</nav>",
        contents(&sections)
    )?;
    writeln!(page, "<section id=\"recording\"><h2>Recording</h2>")?;
    info.write(arguments, recording, &player, Form::Html, &mut page)?;
    writeln!(page, "</section>\n<section id=\"health\"><h2>Health</h2>")?;
    health::write(&health, &clock, Form::Html, &mut page)?;
    writeln!(page, "</section>")?;
    for (place, section) in sections.iter().enumerate() {
        section.write(place, &draw(&section.day, &clock), &mut page)?;
    }
    writeln!(page, "<script>{SCRIPT}</script>\n</body></html>")?;
    page.flush()?;
    let columns = &["file", "symbols", "changes", "rejected messages"];
    let mut table = Table::new(output, arguments.form(), "report", columns)?;
    let changes: u64 = sections
        .iter()
        .map(|section| section.changes.len() as u64 + section.changes_left)
        .sum();
    let rejected: u64 = sections
        .iter()
        .map(|section| section.rejected.len() as u64 + section.rejected_left)
        .sum();
    table.row(row![path, sections.len(), changes, rejected])?;
    table.end()?;
    Ok(Outcome::Agreed)
}

fn contents(sections: &[Section]) -> String {
    let mut links = vec![
        "<a href=\"#recording\">Recording</a>".to_string(),
        "<a href=\"#health\">Health</a>".to_string(),
    ];
    let symbols = sections.iter().enumerate();
    links.extend(symbols.map(|(place, section)| {
        format!(
            "<a href=\"#symbol{place}\">{}</a>",
            escape(&section.day.symbol)
        )
    }));
    links.join(" ")
}

impl Section {
    /// Takes in what a record did to the symbol.
    fn note(&mut self, place: usize, played: &Played, at: &str) {
        let player = played.player;
        let (line, block) = match played.record.call {
            Call::TakeBlock { line, block, .. } => (Some(line), block),
            _ => (None, &[][..]),
        };
        for change in player
            .changes
            .iter()
            .filter(|change| change.symbol == place)
        {
            let worked = change.message.map(|i| &player.messages[i]);
            let says = worked.map(|worked| detail(&block[worked.start..worked.end]));
            let sequence = worked.map(|worked| worked.sequence);
            let (before, after) = (decoded(&change.before), decoded(&change.after));
            for entry in 0..6 {
                if bytes(&change.before, entry) == bytes(&change.after, entry) {
                    continue;
                }
                if self.changes.len() == ROWS {
                    self.changes_left += 1;
                    continue;
                }
                let mut row = row![at, NAMES[entry], text(before[entry]), text(after[entry])];
                row.extend(row![played.index, line, sequence, says.clone()]);
                self.changes.push(row);
            }
        }
        for worked in &player.messages {
            if worked.symbol != Some(place) || worked.code == 0 {
                continue;
            }
            if self.rejected.len() == ROWS {
                self.rejected_left += 1;
                continue;
            }
            let message = &block[worked.start..worked.end];
            let mut row = row![
                at,
                played.index,
                line,
                worked.sequence,
                Kind::of(message).name()
            ];
            row.extend(row![
                detail(message),
                code_text(worked.code, worked.is_in_force)
            ]);
            self.rejected.push(row);
        }
    }

    fn write(&self, place: usize, picture: &str, page: &mut dyn Write) -> Result<(), Fault> {
        let symbol = escape(&self.day.symbol);
        writeln!(
            page,
            "<section id=\"symbol{place}\"><h2>{symbol}</h2>\n{picture}"
        )?;
        let name = "rejected or partly accepted messages";
        let mut table = Table::new(page, Form::Html, name, REJECTED)?;
        self.rejected
            .iter()
            .try_for_each(|row| table.row(row.clone()))?;
        table.end()?;
        write_left(self.rejected_left, "replay", page)?;
        let mut table = Table::new(page, Form::Html, "changes", CHANGES)?;
        self.changes
            .iter()
            .try_for_each(|row| table.row(row.clone()))?;
        table.end()?;
        write_left(self.changes_left, "changes", page)?;
        writeln!(page, "</section>")?;
        Ok(())
    }
}

fn write_left(left: u64, command: &str, page: &mut dyn Write) -> Result<(), Fault> {
    if left > 0 {
        writeln!(
            page,
            "<p>{left} more rows: <code>quotebook {command}</code> lists them.</p>"
        )?;
    }
    Ok(())
}
