//! `info`: symbols, lines, times, blocks, size.

use std::io::Write;
use std::ops::ControlFlow;

use quotebook::log::Call;

use crate::args::Arguments;
use crate::fault::{Fault, Outcome};
use crate::message::symbol_text;
use crate::page::Page;
use crate::play::Player;
use crate::recording::{Played, Recording};
use crate::row;
use crate::table::{Cell, Form, Table};

#[derive(Clone, Copy, Default)]
struct Counts {
    accepted: u64,
    partly: u64,
    rejected: u64,
}

#[derive(Clone, Copy, Default)]
struct Line {
    letter: Option<u8>,
    blocks: u64,
    messages: u64,
    first: Option<u64>,
    last: u64,
}

/// What is counted of a recording.
pub struct Info {
    symbols: [Counts; 64],
    lines: [Line; 64],
    records: u64,
    blocks: u64,
    messages: u64,
    days: u64,
    /// The times of the first and the last record.
    times: Option<(u64, u64)>,
}

impl Info {
    pub fn new() -> Info {
        Info {
            symbols: [Counts::default(); 64],
            lines: [Line::default(); 64],
            records: 0,
            blocks: 0,
            messages: 0,
            days: 0,
            times: None,
        }
    }

    /// Takes in a record.
    pub fn note(&mut self, played: &Played) {
        let time = played.record.time;
        self.records += 1;
        let first = self.times.map_or(time, |(first, _)| first);
        self.times = Some((first, time));
        let is_done = matches!(played.player.done.number, 0 | 70);
        match played.record.call {
            Call::StartDay if is_done => self.days += 1,
            Call::OpenLine { line, letter } if is_done => {
                self.lines[line as usize].letter = Some(letter);
            }
            Call::TakeBlock { line, .. } => self.note_block(played, line, time),
            _ => {}
        }
    }

    fn note_block(&mut self, played: &Played, line: u32, time: u64) {
        let messages = &played.player.messages;
        self.blocks += 1;
        self.messages += messages.len() as u64;
        if let Some(line) = self.lines.get_mut(line as usize) {
            line.blocks += 1;
            line.messages += messages.len() as u64;
            line.first.get_or_insert(time);
            line.last = time;
        }
        for message in messages {
            let Some(counts) = message.symbol.and_then(|place| self.symbols.get_mut(place)) else {
                continue;
            };
            match (message.code, message.is_in_force) {
                (0, _) => counts.accepted += 1,
                (_, true) => counts.partly += 1,
                (_, false) => counts.rejected += 1,
            }
        }
    }

    /// The tables `recording`, `symbols` and `lines`.
    pub fn write(
        &self,
        arguments: &Arguments,
        recording: &Recording,
        player: &Player,
        form: Form,
        output: &mut dyn Write,
    ) -> Result<(), Fault> {
        let show = |time| recording.clock.show(time);
        let mut table = Table::new(output, form, "recording", &["what", "value"])?;
        table.row(row!["file", arguments.recording.as_str()])?;
        table.row(row!["bytes", recording.len])?;
        table.row(row!["symbols that the book is made for", recording.head.n])?;
        table.row(row!["requests", requests(recording.head.requests)])?;
        table.row(row!["records", self.records])?;
        table.row(row!["blocks", self.blocks])?;
        table.row(row!["messages in taken blocks", self.messages])?;
        table.row(row!["days started", self.days])?;
        table.row(row![
            "first record",
            self.times.map(|(first, _)| show(first))
        ])?;
        table.row(row!["last record", self.times.map(|(_, last)| show(last))])?;
        table.row(row!["end", recording.stop.map(|stop| stop.to_string())])?;
        table.end()?;
        let columns = &[
            "symbol",
            "round lot",
            "primary",
            "accepted",
            "partly",
            "rejected",
            "at the end",
        ];
        let mut table = Table::new(output, form, "symbols", columns)?;
        for (place, symbol) in player.listed.iter().enumerate() {
            let Some(page) = Page::read(&player.book.memory, place) else {
                continue;
            };
            let counts = self.symbols[place];
            let status = if page.is_halted { "halted" } else { "trading" };
            table.row(row![
                symbol_text(symbol),
                page.round_lot,
                page.primary.escape_ascii().to_string(),
                counts.accepted,
                counts.partly,
                counts.rejected,
                status,
            ])?;
        }
        table.end()?;
        let columns = &[
            "line",
            "letter",
            "blocks",
            "messages",
            "first block",
            "last block",
        ];
        let mut table = Table::new(output, form, "lines", columns)?;
        for (number, line) in self.lines.iter().enumerate() {
            if line.letter.is_none() && line.blocks == 0 {
                continue;
            }
            let last = line.first.map(|_| show(line.last));
            table.row(row![
                number,
                letter(line.letter),
                line.blocks,
                line.messages,
                line.first.map(show),
                last,
            ])?;
        }
        table.end()?;
        Ok(())
    }
}

pub fn run(
    arguments: &Arguments,
    recording: &mut Recording,
    output: &mut dyn Write,
) -> Result<Outcome, Fault> {
    let mut player = Player::new(recording.head.n, false);
    let mut info = Info::new();
    recording.play(&mut player, 0, u64::MAX, |played| {
        info.note(played);
        Ok(ControlFlow::Continue(()))
    })?;
    info.write(arguments, recording, &player, arguments.form(), output)?;
    Ok(Outcome::Agreed)
}

/// A line's letter.
pub fn letter(letter: Option<u8>) -> Cell {
    match letter {
        Some(letter) => letter.escape_ascii().to_string().into(),
        None => "not open".into(),
    }
}

/// The requests of a head, as T-01 to T-13.
fn requests(bits: u16) -> String {
    let set: Vec<u32> = (0..16)
        .filter(|bit| bits & 1 << bit != 0)
        .map(|bit| bit + 1)
        .collect();
    match set.as_slice() {
        [] => "none".to_string(),
        [first, .., last] if (last - first) as usize + 1 == set.len() => {
            format!("T-{first:02} to T-{last:02}")
        }
        set => {
            let names = set.iter().map(|number| format!("T-{number:02}"));
            names.collect::<Vec<_>>().join(", ")
        }
    }
}
