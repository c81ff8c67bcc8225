//! The first difference that an audit finds.

use std::io::Write;

use quotebook::log::Call;

use super::code_text;
use super::replay::refused;
use crate::clock::Clock;
use crate::entries::{bytes, decoded, flags, text, NAMES};
use crate::fault::Fault;
use crate::library::{name, Done};
use crate::message::{detail, symbol_text, Kind};
use crate::play::{Entries, Player};
use crate::recording::Played;
use crate::row;
use crate::table::{Cell, Form, Table};

/// A figure that differs, and where.
pub struct Difference {
    /// What the book was compared with.
    pub by: String,
    /// What differs, what the book has, and what the other.
    pub figures: Vec<(String, String, String)>,
    /// The message of the block, if one made it.
    pub message: Option<usize>,
    pub symbol: Option<usize>,
    /// The entries before and behind the message, and as they were worked out anew.
    pub states: Option<(Entries, Entries, Option<Entries>)>,
}

impl Difference {
    pub fn new(by: &str) -> Difference {
        Difference {
            by: by.to_string(),
            figures: Vec::new(),
            message: None,
            symbol: None,
            states: None,
        }
    }

    pub fn figure(mut self, figure: &str, book: &str, other: &str) -> Difference {
        let figure = [figure, book, other].map(str::to_string);
        self.figures.push(figure.into());
        self
    }

    /// At a message.
    pub fn at(mut self, i: usize, player: &Player) -> Difference {
        self.message = Some(i);
        self.symbol = player.messages.get(i).and_then(|message| message.symbol);
        self
    }

    /// In a symbol's entries, behind message i if there is one.
    pub fn entries(
        mut self,
        i: usize,
        symbol: usize,
        before: Entries,
        kept: Entries,
        anew: Entries,
    ) -> Difference {
        for at in (0..6).filter(|&at| bytes(&kept, at) != bytes(&anew, at)) {
            let entry = |entries: &Entries| text(decoded(entries)[at]);
            self = self.figure(NAMES[at], &entry(&kept), &entry(&anew));
        }
        self.message = (i != usize::MAX).then_some(i);
        self.symbol = Some(symbol);
        self.states = Some((before, kept, Some(anew)));
        self
    }
}

/// The difference, its message, and the entries before and behind it.
pub fn write(
    difference: &Difference,
    played: &Played,
    clock: &Clock,
    form: Form,
    output: &mut dyn Write,
) -> Result<(), Fault> {
    let player = played.player;
    let mut table = Table::new(output, form, "difference", &["what", "value"])?;
    table.row(row!["found in", difference.by.as_str()])?;
    table.row(row!["record", played.index])?;
    table.row(row!["at byte", played.record.place])?;
    table.row(row!["time", clock.show(played.record.time)])?;
    let symbol = difference.symbol.and_then(|place| player.listed.get(place));
    table.row(row!["symbol", symbol.map(|symbol| symbol_text(symbol))])?;
    match (difference.message, played.record.call) {
        (Some(i), Call::TakeBlock { line, block, .. }) if i < player.messages.len() => {
            let worked = &player.messages[i];
            let message = &block[worked.start..worked.end];
            table.row(row!["line", line])?;
            table.row(row!["sequence", worked.sequence])?;
            table.row(row!["message", i])?;
            table.row(row!["type", Kind::of(message).name()])?;
            table.row(row!["says", detail(message)])?;
            table.row(row!["answer", code_text(worked.code, worked.is_in_force)])?;
            table.row(row!["changed", flags(worked.flags)])?;
        }
        (_, call) => {
            table.row(row!["call", name(&call)])?;
            let answer = match player.done.number {
                0 | 70 => "done".to_string(),
                _ => refused(&player.done),
            };
            table.row(row!["answer", answer])?;
        }
    }
    table.end()?;
    let columns = &["figure", "the book has", "the other has"];
    let mut table = Table::new(output, form, "figures that differ", columns)?;
    for (figure, book, other) in &difference.figures {
        table.row(row![figure.as_str(), book.as_str(), other.as_str()])?;
    }
    table.end()?;
    if let Some((before, after, anew)) = &difference.states {
        let columns: &[&str] = match anew {
            Some(_) => &["entry", "before", "behind", "worked out anew"],
            None => &["entry", "before", "behind"],
        };
        let mut table = Table::new(output, form, "entries around it", columns)?;
        let (before, after) = (decoded(before), decoded(after));
        let anew = anew.as_ref().map(decoded);
        for (at, name) in NAMES.iter().enumerate() {
            let mut row = row![*name, text(before[at]), text(after[at])];
            row.extend(anew.map(|anew| Cell::from(text(anew[at]))));
            table.row(row)?;
        }
        table.end()?;
    }
    Ok(())
}

/// The first figure of an answer that differs.
pub fn answers(by: &str, player: &Player, other: &Done) -> Option<Difference> {
    let done = &player.done;
    if done == other {
        return None;
    }
    let difference = Difference::new(by);
    let pairs = done
        .filled
        .chunks(4)
        .zip(other.filled.chunks(4))
        .enumerate();
    let codes = pairs.clone().find(|(_, (a, b))| a.get(1..3) != b.get(1..3));
    if let (Some((i, (a, b))), Some(_)) = (codes, done.report) {
        if done.filled.len() == other.filled.len() && a.len() == 4 && b.len() == 4 {
            let figure = |answer: &[u8]| format!("code {} flags {}", answer[1], answer[2]);
            let difference = difference.figure("code and flags", &figure(a), &figure(b));
            return Some(difference.at(i, player));
        }
    }
    let figure = |done: &Done| match done.report {
        Some(report) => format!("{:?}", report.fields()),
        None => format!(
            "number {}, told {:?}, {:02x?}",
            done.number, done.told, done.filled
        ),
    };
    Some(difference.figure("answer", &figure(done), &figure(other)))
}

#[cfg(test)]
mod tests {
    use super::*;
    use crate::play::NO_ENTRIES;
    use second::build::{self, Round};

    /// A player that has taken one quote.
    fn player() -> Player {
        let mut player = Player::new(1, true);
        player.play(&Call::AddSymbol {
            symbol: b"ZT         ",
            round_lot: 100,
            primary: b'N',
        });
        player.play(&Call::OpenLine {
            line: 5,
            letter: b'N',
        });
        player.play(&Call::StartDay);
        let round = Round::regular(b'N', 7, "ZT", (10_000_000, 3), (10_020_000, 2));
        let message = build::round_lot(&round, &build::Odd::IDLE);
        player.play(&Call::TakeBlock {
            line: 5,
            block: &build::block(1, &[message]),
            room: 180,
        });
        player
    }

    /// An answer with any figure altered is a difference, and is named.
    #[test]
    fn answers_that_differ() {
        let player = player();
        assert!(answers("itself", &player, &player.done.clone()).is_none());
        let figures = |change: fn(&mut Done)| {
            let mut other = player.done.clone();
            change(&mut other);
            let difference = answers("another", &player, &other).expect("a difference");
            (difference.message, difference.figures[0].clone())
        };
        let (message, (figure, book, other)) = figures(|done| done.filled[1] = 64);
        assert_eq!((message, figure.as_str()), (Some(0), "code and flags"));
        assert_eq!(
            (book.as_str(), other.as_str()),
            ("code 0 flags 3", "code 64 flags 3")
        );
        let (_, (_, _, other)) = figures(|done| done.filled[2] = 1);
        assert_eq!(other, "code 0 flags 1");
        let (message, (figure, book, other)) =
            figures(|done| done.report.as_mut().expect("a report").expected = 7);
        assert_eq!((message, figure.as_str()), (None, "answer"));
        assert_eq!(book, "[0, 0, 2, 1, 1, 0, 0]");
        assert_eq!(other, "[0, 0, 7, 1, 1, 0, 0]");
        figures(|done| done.filled.clear());
        figures(|done| done.number = 70);
        figures(|done| done.told[0] = 1);
    }

    /// Entries that differ are named one by one.
    #[test]
    fn entries_that_differ() {
        let player = player();
        let kept = player.entries(0);
        let mut anew = kept;
        anew[11] ^= 1;
        anew[16..32].copy_from_slice(&NO_ENTRIES[16..32]);
        let difference = Difference::new("the reviewer's history");
        let difference = difference.entries(0, 0, NO_ENTRIES, kept, anew);
        let figures: Vec<&str> = difference
            .figures
            .iter()
            .map(|(name, _, _)| name.as_str())
            .collect();
        assert_eq!(figures, ["NB", "NO"]);
        assert_eq!(difference.figures[1].1, "N R 10.02 x 2");
        assert_eq!(difference.figures[1].2, "none");
    }
}
