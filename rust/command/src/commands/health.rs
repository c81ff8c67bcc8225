//! `health`: of each line its blocks, gaps, duplicates and refusals, of each code its messages.

use std::collections::BTreeMap;
use std::io::Write;
use std::ops::ControlFlow;

use quotebook::log::Call;
use quotebook::Number;

use super::info::letter;
use super::{code_sentence, number_sentence};
use crate::args::Arguments;
use crate::clock::Clock;
use crate::fault::{Fault, Outcome};
use crate::library::name;
use crate::play::Player;
use crate::recording::{Played, Recording};
use crate::row;
use crate::table::{Form, Table};

#[derive(Clone, Copy, Default)]
pub struct Line {
    pub letter: Option<u8>,
    pub blocks: u64,
    pub messages: u64,
    pub rejected: u64,
    pub gaps: u64,
    pub missing: u64,
    pub duplicates: u64,
    pub refused: u64,
}

/// How often something came, and where first.
#[derive(Clone, Copy)]
pub struct Seen {
    pub times: u64,
    pub record: u64,
    pub time: u64,
    pub line: Option<u32>,
}

/// What is counted of a recording.
pub struct Health {
    /// The 64 lines; blocks on lines above 63 are counted in the last.
    pub lines: Vec<Line>,
    /// By the number, and what was called.
    pub refusals: BTreeMap<(u8, &'static str), Seen>,
    /// By the code, and whether the round part was in force.
    pub codes: BTreeMap<(u8, bool), Seen>,
}

impl Health {
    pub fn new() -> Health {
        Health {
            lines: vec![Line::default(); 65],
            refusals: BTreeMap::new(),
            codes: BTreeMap::new(),
        }
    }

    /// Takes in a record.
    pub fn note(&mut self, played: &Played) {
        let done = &played.player.done;
        let call = &played.record.call;
        let is_taken = matches!(done.number, 0 | 70);
        let mut seen = Seen {
            times: 0,
            record: played.index,
            time: played.record.time,
            line: None,
        };
        match *call {
            Call::Make { .. } if is_taken => {
                self.lines.iter_mut().for_each(|line| line.letter = None)
            }
            Call::OpenLine { line, letter } if is_taken => {
                self.lines[line as usize].letter = Some(letter);
            }
            Call::TakeBlock { line: number, .. } => {
                seen.line = Some(number);
                let line = &mut self.lines[number.min(64) as usize];
                line.blocks += 1;
                line.messages += played.player.messages.len() as u64;
                match done.number {
                    0 => {}
                    70 => {
                        line.gaps += 1;
                        line.missing += done.report.map_or(0, |report| report.gap.into());
                    }
                    number if number == u8::from(Number::Duplicate) => line.duplicates += 1,
                    _ => line.refused += 1,
                }
                for message in played
                    .player
                    .messages
                    .iter()
                    .filter(|message| message.code != 0)
                {
                    line.rejected += u64::from(!message.is_in_force);
                    let key = (message.code, message.is_in_force);
                    self.codes.entry(key).or_insert(seen).times += 1;
                }
            }
            _ => {}
        }
        if !is_taken {
            let key = (done.number, name(call));
            self.refusals.entry(key).or_insert(seen).times += 1;
        }
    }
}

pub fn run(
    arguments: &Arguments,
    recording: &mut Recording,
    output: &mut dyn Write,
) -> Result<Outcome, Fault> {
    let mut player = Player::new(recording.head.n, false);
    let mut health = Health::new();
    recording.play(&mut player, 0, u64::MAX, |played| {
        health.note(played);
        Ok(ControlFlow::Continue(()))
    })?;
    write(&health, &recording.clock, arguments.form(), output)?;
    Ok(Outcome::Agreed)
}

/// The tables `lines`, `refused calls` and `codes`.
pub fn write(
    health: &Health,
    clock: &Clock,
    form: Form,
    output: &mut dyn Write,
) -> Result<(), Fault> {
    let columns = &[
        "line",
        "letter",
        "blocks",
        "gaps",
        "missing",
        "duplicates",
        "refused",
        "messages",
        "rejected",
    ];
    let mut table = Table::new(output, form, "health of lines", columns)?;
    for (number, line) in health.lines.iter().enumerate() {
        if line.letter.is_none() && line.blocks == 0 {
            continue;
        }
        let number = match number {
            64 => "above 63".to_string(),
            number => number.to_string(),
        };
        table.row(row![
            number,
            letter(line.letter),
            line.blocks,
            line.gaps,
            line.missing,
            line.duplicates,
            line.refused,
            line.messages,
            line.rejected,
        ])?;
    }
    table.end()?;
    let columns = &[
        "number", "call", "times", "first at", "record", "line", "why",
    ];
    let mut table = Table::new(output, form, "refused calls", columns)?;
    for (&(number, call), seen) in &health.refusals {
        let at = clock.show(seen.time);
        let why = number_sentence(number);
        table.row(row![
            number,
            call,
            seen.times,
            at,
            seen.record,
            seen.line,
            why
        ])?;
    }
    table.end()?;
    let columns = &[
        "code", "messages", "of them", "first at", "record", "line", "why",
    ];
    let mut table = Table::new(output, form, "codes", columns)?;
    for (&(code, is_in_force), seen) in &health.codes {
        let at = clock.show(seen.time);
        let became = if is_in_force {
            "partly accepted"
        } else {
            "rejected"
        };
        let why = code_sentence(code);
        table.row(row![
            code,
            seen.times,
            became,
            at,
            seen.record,
            seen.line,
            why
        ])?;
    }
    table.end()?;
    Ok(())
}
