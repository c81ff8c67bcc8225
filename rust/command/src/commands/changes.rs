//! `changes`: every change of an entry of a symbol, and the message that made it.

use std::io::Write;
use std::ops::ControlFlow;

use quotebook::log::Call;

use super::{symbol, time};
use crate::args::Arguments;
use crate::entries::{bytes, decoded, text, NAMES};
use crate::fault::{Fault, Outcome};
use crate::library::name;
use crate::message::{detail, Kind};
use crate::play::Player;
use crate::recording::Recording;
use crate::row;
use crate::table::{Cell, Table};

const COLUMNS: &[&str] = &[
    "time", "entry", "before", "after", "record", "line", "sequence", "message", "says",
];

pub fn run(
    arguments: &Arguments,
    recording: &mut Recording,
    output: &mut dyn Write,
) -> Result<Outcome, Fault> {
    let symbol = symbol(arguments)?;
    let wanted = wanted(arguments.get("--entry"))?;
    let from = time(arguments, recording, "--from", 0)?;
    let to = time(arguments, recording, "--to", u64::MAX)?;
    let clock = recording.clock;
    let mut table = Table::new(output, arguments.form(), "changes", COLUMNS)?;
    let mut player = Player::new(recording.head.n, true);
    let mut is_listed = false;
    recording.play(&mut player, 0, to, |played| {
        let player = played.player;
        is_listed |= player.listed.contains(&symbol);
        if played.record.time < from {
            return Ok(ControlFlow::Continue(()));
        }
        for change in player.changes.iter().filter(|change| change.name == symbol) {
            let (before, after) = (decoded(&change.before), decoded(&change.after));
            for at in (0..6).filter(|&at| wanted[at]) {
                if bytes(&change.before, at) == bytes(&change.after, at) {
                    continue;
                }
                let mut cells = row![
                    clock.show(played.record.time),
                    NAMES[at],
                    text(before[at]),
                    text(after[at]),
                    played.index,
                ];
                match (change.message, played.record.call) {
                    (Some(i), Call::TakeBlock { line, block, .. }) => {
                        let worked = &player.messages[i];
                        let message = &block[worked.start..worked.end];
                        let kind = Kind::of(message).name();
                        cells.extend(row![line, worked.sequence, kind, detail(message)]);
                    }
                    (_, call) => {
                        let call = format!("({})", name(&call));
                        cells.extend(row![Cell::None, Cell::None, call, ""]);
                    }
                }
                table.row(cells)?;
            }
        }
        Ok(ControlFlow::Continue(()))
    })?;
    table.end()?;
    match is_listed {
        true => Ok(Outcome::Agreed),
        false => Fault::usage(format!("{} is not listed", arguments.need("--symbol")?)),
    }
}

/// Which of the six entries were asked for: all, if none are named.
fn wanted(names: Option<&str>) -> Result<[bool; 6], Fault> {
    let Some(names) = names else {
        return Ok([true; 6]);
    };
    let mut wanted = [false; 6];
    for name in names.split(',') {
        match NAMES
            .iter()
            .position(|known| known.eq_ignore_ascii_case(name))
        {
            Some(at) => wanted[at] = true,
            None => return Fault::usage(format!("{name}: entries are {}", NAMES.join(", "))),
        }
    }
    Ok(wanted)
}
