//! `plot`: the day of a symbol as a picture.

use std::fs;
use std::io::Write;
use std::ops::ControlFlow;

use super::{symbol, time};
use crate::args::Arguments;
use crate::day::Day;
use crate::fault::{Fault, Outcome};
use crate::message::symbol_text;
use crate::play::Player;
use crate::recording::Recording;
use crate::row;
use crate::svg::draw;
use crate::table::Table;

pub fn run(
    arguments: &Arguments,
    recording: &mut Recording,
    output: &mut dyn Write,
) -> Result<Outcome, Fault> {
    let symbol = symbol(arguments)?;
    let path = arguments.need("-o")?;
    let from = time(arguments, recording, "--from", 0)?;
    let to = time(arguments, recording, "--to", u64::MAX)?;
    let clock = recording.clock;
    let mut player = Player::new(recording.head.n, true);
    let mut day: Option<Day> = None;
    recording.play(&mut player, 0, to, |played| {
        if day.is_none() {
            let listed = &played.player.listed;
            let place = listed.iter().position(|listed| *listed == symbol);
            day = place.map(|place| Day::new(symbol_text(&symbol), place, from));
        }
        if let Some(day) = &mut day {
            day.note(played, &clock);
        }
        Ok(ControlFlow::Continue(()))
    })?;
    let Some(day) = day else {
        return Fault::usage(format!("{} is not listed", symbol_text(&symbol)));
    };
    fs::write(path, draw(&day, &clock))?;
    let columns = &[
        "symbol",
        "changes drawn",
        "bands",
        "rejected messages",
        "file",
    ];
    let mut table = Table::new(output, arguments.form(), "plot", columns)?;
    let changes: u64 = day.series.iter().map(|series| series.changes).sum();
    let bands = day.bands.len();
    let rejected: u64 = day.rejected.iter().map(|rejected| rejected.count).sum();
    table.row(row![day.symbol, changes, bands, rejected, path])?;
    table.end()?;
    Ok(Outcome::Agreed)
}
