//! `audit`: everything is worked out anew and compared, after every message: by the second
//! implementation's reviewer from its history, by its engine if that is asked for, and with a router's
//! log of answers. The first difference is shown with its message and the state around it.

use std::io::Write;
use std::ops::ControlFlow;

use quotebook::log::Call;
use second::{Engine, LongReviewer, QuoteBook};

use super::difference::{self, answers, Difference};
use crate::args::Arguments;
use crate::entries::decoded;
use crate::fault::{Fault, Outcome};
use crate::index::Moment;
use crate::library::carry_out;
use crate::message::symbol_of_text;
use crate::play::{Change, Entries, Player, NO_ENTRIES};
use crate::recording::{Played, Recording};
use crate::router::{entry_cells, Figures, Place, RouterLog};
use crate::row;
use crate::sources::Sources;
use crate::table::{Cell, Table};

/// What is compared with the recording's calls on the library.
struct Audit {
    reviewer: LongReviewer,
    engine: Option<Engine>,
    router: Option<RouterLog>,
    sources: Sources,
    /// The entries as they stand behind the message that is looked at.
    current: Vec<Entries>,
    counts: Counts,
}

#[derive(Default)]
struct Counts {
    records: u64,
    messages: u64,
    publications: u64,
    rows: u64,
}

pub fn run(
    arguments: &Arguments,
    recording: &mut Recording,
    output: &mut dyn Write,
) -> Result<Outcome, Fault> {
    let n = recording.head.n;
    let fresh = LongReviewer::fresh(n.into()).zip(Engine::fresh(n.into()));
    let (reviewer, engine) = fresh.expect("an open recording is of a book");
    let mut audit = Audit {
        reviewer,
        engine: arguments.has("--second").then_some(engine),
        router: arguments.get("--log").map(RouterLog::open).transpose()?,
        sources: Sources::default(),
        current: Vec::new(),
        counts: Counts::default(),
    };
    let mut found = None;
    let mut player = Player::new(n, true);
    let (clock, form) = (recording.clock, arguments.form());
    recording.play(&mut player, 0, u64::MAX, |played| {
        audit.sources.note(played);
        match audit.compare(played)? {
            None => Ok(ControlFlow::Continue(())),
            Some(difference) => {
                difference::write(&difference, played, &clock, form, output)?;
                found = Some((difference.symbol, played.index, played.record.time));
                Ok(ControlFlow::Break(()))
            }
        }
    })?;
    if let Some((symbol, index, time)) = found {
        if let Some(place) = symbol.filter(|&place| place < player.listed.len()) {
            let moment = Moment {
                player,
                sources: audit.sources,
                records: index + 1,
                time: Some(time),
            };
            super::at::write(&moment, place, true, &clock, form, output)?;
        }
        return Ok(Outcome::Difference);
    }
    let left = audit.router.as_ref().and_then(|router| router.row.as_ref());
    let is_cut = recording.damage().is_err();
    if let Some(row) = left.filter(|_| !is_cut) {
        let mut table = Table::new(output, form, "difference", &["what", "value"])?;
        table.row(row![
            "found in",
            format!("the router's log, line {}", row.number)
        ])?;
        let why = format!(
            "{} is not in the recording, or its row not in order",
            place(&row.place)
        );
        table.row(row!["figure", why])?;
        table.end()?;
        return Ok(Outcome::Difference);
    }
    let counts = &audit.counts;
    let mut table = Table::new(output, form, "audit", &["what", "value"])?;
    table.row(row!["records carried out", counts.records])?;
    table.row(row!["messages compared", counts.messages])?;
    table.row(row!["publications compared", counts.publications])?;
    table.row(row!["rows of the router's log compared", counts.rows])?;
    let by = match audit.engine {
        Some(_) => "the reviewer's history and the second engine",
        None => "the reviewer's history",
    };
    table.row(row!["worked out anew by", by])?;
    let result = if is_cut {
        "agreed, up to the damage"
    } else {
        "agreed"
    };
    table.row(row!["result", result])?;
    table.end()?;
    Ok(Outcome::Agreed)
}

fn place(place: &Place) -> String {
    match place {
        Place::Record {
            record,
            message: Some(message),
        } => format!("message {message} of record {record}"),
        Place::Record {
            record,
            message: None,
        } => format!("record {record}"),
        Place::Sequence { line, sequence } => format!("line {line} sequence {sequence}"),
    }
}

impl Audit {
    /// The first difference at a record.
    fn compare(&mut self, played: &Played) -> Result<Option<Difference>, Fault> {
        let player = played.player;
        self.counts.records += 1;
        self.counts.messages += player.messages.len() as u64;
        let call = &played.record.call;
        let reviewed = carry_out(&mut self.reviewer, call);
        let engine_done = self.engine.as_mut().map(|engine| carry_out(engine, call));
        self.current.resize(player.listed.len(), NO_ENTRIES);
        let mut found = None;
        if let Some(torn) = player.torn {
            let difference = Difference::new("the library with the message alone in its block");
            let difference = difference.figure("code and flags", "one answer", "another");
            found = Some(difference.at(torn, player));
        }
        let history = "the reviewer's history";
        found = found.or_else(|| answers(history, player, &reviewed));
        if let Some(done) = engine_done.filter(|_| found.is_none()) {
            found = answers("the second engine", player, &done);
        }
        let found = match found {
            Some(difference) => Some(difference),
            None => self.publications(played)?,
        };
        Ok(found)
    }

    /// The entries behind each message, and the rows of the router's log about it.
    fn publications(&mut self, played: &Played) -> Result<Option<Difference>, Fault> {
        let player = played.player;
        let mut changes = player.changes.iter().peekable();
        let seen: Vec<_> = match played.record.call {
            Call::TakeBlock { .. } => self.reviewer.seen().to_vec(),
            _ => Vec::new(),
        };
        let mut seen = seen.iter().peekable();
        if let Some(difference) = self.router_rows(played, None, false)? {
            return Ok(Some(difference));
        }
        for i in 0..player.messages.len() {
            while let Some(change) = changes.next_if(|change| change.message == Some(i)) {
                self.current[change.symbol] = change.after;
            }
            while let Some(seen) = seen.next_if(|seen| seen.message == i) {
                self.counts.publications += 1;
                let kept = self.current[seen.symbol];
                if kept != seen.publication {
                    let difference = Difference::new("the reviewer's history");
                    let before = self.before(player, Some(i), seen.symbol);
                    let anew = seen.publication;
                    return Ok(Some(difference.entries(i, seen.symbol, before, kept, anew)));
                }
            }
            if let Some(difference) = self.router_rows(played, Some(i), true)? {
                return Ok(Some(difference));
            }
        }
        for change in changes {
            // A make has left none.
            if let Some(current) = self.current.get_mut(change.symbol) {
                *current = change.after;
            }
        }
        if let Some(difference) = self.router_rows(played, None, true)? {
            return Ok(Some(difference));
        }
        Ok(self.kept(played))
    }

    /// The entries of a symbol before a message, or before the call.
    fn before(&self, player: &Player, message: Option<usize>, symbol: usize) -> Entries {
        let mut changes = player.changes.iter();
        let is_its = |change: &&Change| change.message == message && change.symbol == symbol;
        let change = changes.find(is_its);
        change.map_or(self.current[symbol], |change| change.before)
    }

    /// What the book itself keeps, behind the whole call, of the symbols that it concerned.
    fn kept(&mut self, played: &Played) -> Option<Difference> {
        let player = played.player;
        let concerned: Vec<usize> = match played.record.call {
            Call::TakeBlock { .. } => {
                let named = player.messages.iter().filter_map(|message| message.symbol);
                named
                    .chain(player.changes.iter().map(|change| change.symbol))
                    .collect()
            }
            Call::StartDay | Call::EndDay | Call::AddSymbol { .. } => {
                (0..player.listed.len()).collect()
            }
            _ => Vec::new(),
        };
        for symbol in concerned {
            self.counts.publications += 1;
            let kept = player.entries(symbol);
            let mut anew = NO_ENTRIES;
            self.reviewer.read(&player.listed[symbol], &mut anew);
            let mut by = "the reviewer's history";
            if let Some(engine) = self.engine.as_ref().filter(|_| kept == anew) {
                engine.read(&player.listed[symbol], &mut anew);
                by = "the second engine";
            }
            if kept != anew {
                let before = self.before(player, None, symbol);
                return Some(Difference::new(by).entries(usize::MAX, symbol, before, kept, anew));
            }
        }
        None
    }

    /// The rows of the router's log about a message, or about the call itself. The call's rows stand
    /// behind those of its messages, or before them if they tell no entries.
    fn router_rows(
        &mut self,
        played: &Played,
        message: Option<usize>,
        with_entries: bool,
    ) -> Result<Option<Difference>, Fault> {
        let Some(mut router) = self.router.take() else {
            return Ok(None);
        };
        let found = self.compare_rows(&mut router, played, message, with_entries);
        self.router = Some(router);
        found
    }

    fn compare_rows(
        &mut self,
        router: &mut RouterLog,
        played: &Played,
        message: Option<usize>,
        with_entries: bool,
    ) -> Result<Option<Difference>, Fault> {
        let player = played.player;
        let worked = message.map(|i| &player.messages[i]);
        let line = match played.record.call {
            Call::TakeBlock { line, .. } => Some(u64::from(line)),
            _ => None,
        };
        while let Some(row) = &router.row {
            let is_due = match row.place {
                Place::Record {
                    record,
                    message: wanted,
                } => record == played.index && wanted == message.map(|i| i as u64),
                Place::Sequence {
                    line: wanted,
                    sequence,
                } => {
                    let number = worked.map(|worked| u64::from(worked.sequence));
                    Some(wanted) == line && Some(sequence) == number
                }
            };
            if !is_due || !with_entries && router.tells_entries() {
                break;
            }
            let symbol = match &row.symbol {
                Some(text) => symbol_of_text(text).and_then(|symbol| {
                    let mut listed = player.listed.iter();
                    listed.position(|listed| *listed == symbol)
                }),
                None => worked.and_then(|worked| worked.symbol),
            };
            let figures = Figures {
                code: worked.map(|worked| worked.code),
                flags: worked.map(|worked| worked.flags),
                report: player.done.report,
                entries: symbol.map(|symbol| {
                    let entries = decoded(&self.current[symbol]).into_iter().enumerate();
                    entries.flat_map(entry_cells).collect::<Vec<Cell>>()
                }),
            };
            let wrong = router.compare(&figures);
            if !wrong.is_empty() {
                let by = format!("the router's log, line {}", row.number);
                let mut difference = Difference::new(&by);
                let figures = wrong.into_iter();
                difference.figures = figures
                    .map(|wrong| (wrong.column, wrong.worked_out, wrong.logged))
                    .collect();
                difference.message = message;
                difference.symbol = symbol;
                difference.states = symbol.map(|symbol| {
                    let before = self.before(player, message, symbol);
                    (before, self.current[symbol], None)
                });
                return Ok(Some(difference));
            }
            self.counts.rows += 1;
            router.pass()?;
        }
        Ok(None)
    }
}
