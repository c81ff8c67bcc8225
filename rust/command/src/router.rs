//! A router's log of answers: a CSV file whose rows name messages of the recording, with what the router
//! was told.
//!
//! The first line names the columns. `record` and `message` (from 0; of a block without a message column
//! or cell, the block) say which message a row is about, or `line` and `sequence` do; `symbol` says whose
//! entries it tells, if not those of the message's symbol. The other columns are figures, by their names;
//! an empty cell says nothing, and `none` that there is no entry. Rows stand in the recording's order.

use std::fs::File;
use std::io::{BufRead, BufReader};

use quotebook::{Entry, Price};
use second::Report;

use crate::fault::Fault;
use crate::row;
use crate::table::Cell;

/// The columns that `export --what best` writes and a router's log may have, with the place in front.
pub const COLUMNS: &[&str] = &[
    "record",
    "message",
    "code",
    "flags",
    "nb_name",
    "nb_condition",
    "nb_price",
    "nb_size",
    "nb_ahead",
    "no_name",
    "no_condition",
    "no_price",
    "no_size",
    "no_ahead",
    "fb_name",
    "fb_price",
    "fb_size",
    "fo_name",
    "fo_price",
    "fo_size",
    "ob_name",
    "ob_price",
    "ob_size",
    "oo_name",
    "oo_price",
    "oo_size",
];

/// Where the entries begin in [`COLUMNS`].
pub const ENTRIES_AT: usize = 4;

/// Figures of a block's report.
pub const REPORT: [&str; 7] = [
    "number", "gap", "expected", "count", "accepted", "partly", "rejected",
];

/// The cells of an entry by its place: those of national entries have a condition, and what put them
/// ahead. The name of no entry is `none`.
pub fn entry_cells((at, entry): (usize, Option<Entry>)) -> Vec<Cell> {
    let is_national = at < 2;
    let Some(entry) = entry else {
        let mut cells = row!["none"];
        cells.resize(if is_national { 5 } else { 3 }, Cell::None);
        return cells;
    };
    let mut cells = row![entry.name.to_string(), entry.price, entry.size];
    if is_national {
        let condition = entry.condition.map(|byte| byte.escape_ascii().to_string());
        cells.insert(1, condition.into());
        cells.push(entry.reason.map(|reason| reason.to_string()).into());
    }
    cells
}

/// What a message of the recording has for a figure.
pub struct Figures {
    pub code: Option<u8>,
    pub flags: Option<u8>,
    pub report: Option<Report>,
    /// The cells of the six entries, if the message names a symbol.
    pub entries: Option<Vec<Cell>>,
}

impl Figures {
    /// The figure of a column; none if the message has none.
    fn get(&self, column: &str) -> Option<Cell> {
        match column {
            "code" => self.code.map(Cell::from),
            "flags" => self.flags.map(Cell::from),
            _ => {
                if let Some(at) = REPORT.iter().position(|&known| known == column) {
                    return self.report.map(|report| report.fields()[at].into());
                }
                let at = COLUMNS[ENTRIES_AT..]
                    .iter()
                    .position(|&known| known == column)?;
                self.entries.as_ref().map(|entries| entries[at].clone())
            }
        }
    }
}

/// Which message a row is about.
#[derive(Clone, Copy, PartialEq, Eq, Debug)]
pub enum Place {
    Record { record: u64, message: Option<u64> },
    Sequence { line: u64, sequence: u64 },
}

/// One row.
pub struct Row {
    /// Its line in the file, from 1.
    pub number: u64,
    pub place: Place,
    /// The symbol whose entries it tells, if it is not that of the message.
    pub symbol: Option<String>,
    cells: Vec<String>,
}

/// A figure of the log that is not the recording's.
pub struct Wrong {
    pub column: String,
    pub logged: String,
    pub worked_out: String,
}

/// The log, read row by row.
pub struct RouterLog {
    input: BufReader<File>,
    columns: Vec<String>,
    number: u64,
    /// The row that is due.
    pub row: Option<Row>,
}

impl RouterLog {
    pub fn open(path: &str) -> Result<RouterLog, Fault> {
        let file = File::open(path).map_err(|error| Fault::Usage(format!("{path}: {error}")))?;
        let mut log = RouterLog {
            input: BufReader::new(file),
            columns: Vec::new(),
            number: 0,
            row: None,
        };
        let columns = log.line()?.unwrap_or_default();
        log.columns = columns
            .iter()
            .map(|name| name.to_ascii_lowercase())
            .collect();
        let is_known = |name: &String| {
            let names = COLUMNS
                .iter()
                .chain(&REPORT)
                .chain(&["line", "sequence", "time", "symbol"]);
            names.clone().any(|known| known == name)
        };
        if let Some(unknown) = log.columns.iter().find(|name| !is_known(name)) {
            return Fault::usage(format!("{path}: column {unknown} is not known"));
        }
        log.pass()?;
        Ok(log)
    }

    /// Goes on to the next row.
    pub fn pass(&mut self) -> Result<(), Fault> {
        self.row = None;
        while let Some(cells) = self.line()? {
            if cells.iter().all(String::is_empty) {
                continue;
            }
            let place = self.place(&cells);
            let number = self.number;
            let Some(place) = place.filter(|_| cells.len() == self.columns.len()) else {
                return Fault::usage(format!("the router's log: line {number} names no message"));
            };
            let symbol = self.columns.iter().position(|column| column == "symbol");
            let symbol = symbol.map(|at| cells[at].clone());
            self.row = Some(Row {
                number,
                place,
                symbol: symbol.filter(|symbol| !symbol.is_empty()),
                cells,
            });
            return Ok(());
        }
        Ok(())
    }

    fn place(&self, cells: &[String]) -> Option<Place> {
        let cell = |name: &str| {
            let at = self.columns.iter().position(|column| column == name)?;
            cells.get(at)?.parse::<u64>().ok()
        };
        match (cell("record"), cell("line"), cell("sequence")) {
            (Some(record), _, _) => Some(Place::Record {
                record,
                message: cell("message"),
            }),
            (None, Some(line), Some(sequence)) => Some(Place::Sequence { line, sequence }),
            _ => None,
        }
    }

    /// Whether the row that is due tells any figure of an entry.
    pub fn tells_entries(&self) -> bool {
        let cells = self.row.iter().flat_map(|row| &row.cells);
        let mut figures = self.columns.iter().zip(cells);
        figures.any(|(column, cell)| {
            !cell.is_empty() && COLUMNS[ENTRIES_AT..].contains(&column.as_str())
        })
    }

    /// The figures of the row that is due which are not those of the recording.
    pub fn compare(&self, figures: &Figures) -> Vec<Wrong> {
        let Some(row) = &self.row else {
            return Vec::new();
        };
        let mut wrong = Vec::new();
        let is_place = |name: &str| {
            ["record", "message", "line", "sequence", "time", "symbol"].contains(&name)
        };
        for (column, logged) in self.columns.iter().zip(&row.cells) {
            if is_place(column) || logged.is_empty() {
                continue;
            }
            let worked_out = figures.get(column);
            if !worked_out
                .as_ref()
                .is_some_and(|cell| is_same(cell, logged))
            {
                wrong.push(Wrong {
                    column: column.clone(),
                    logged: logged.clone(),
                    worked_out: match worked_out {
                        Some(Cell::None) | None => "nothing".to_string(),
                        Some(cell) => cell.plain(),
                    },
                });
            }
        }
        wrong
    }

    fn line(&mut self) -> Result<Option<Vec<String>>, Fault> {
        let mut line = String::new();
        let read = self.input.read_line(&mut line);
        let read = read.map_err(|error| Fault::Usage(format!("the router's log: {error}")))?;
        self.number += 1;
        Ok((read > 0).then(|| split(line.trim_end_matches(['\r', '\n']))))
    }
}

/// Prices and numbers are the same if their values are.
fn is_same(cell: &Cell, logged: &str) -> bool {
    match cell {
        Cell::Price(price) => logged.parse() == Ok(Price(*price)),
        Cell::Number(number) => logged.parse() == Ok(*number),
        Cell::Text(text) => text == logged,
        Cell::None => false,
    }
}

/// The cells of a line of CSV.
fn split(line: &str) -> Vec<String> {
    let mut cells = vec![String::new()];
    let mut is_quoted = false;
    let mut letters = line.chars().peekable();
    while let Some(letter) = letters.next() {
        let cell = cells.last_mut().expect("at least one cell");
        match letter {
            '"' if is_quoted && letters.peek() == Some(&'"') => {
                letters.next();
                cell.push('"');
            }
            '"' => is_quoted = !is_quoted,
            ',' if !is_quoted => cells.push(String::new()),
            letter => cell.push(letter),
        }
    }
    cells.iter().map(|cell| cell.trim().to_string()).collect()
}

#[cfg(test)]
mod tests {
    use super::*;

    #[test]
    fn cells_of_a_line() {
        assert_eq!(split("a,\"b,\"\"c\"\"\",,d "), ["a", "b,\"c\"", "", "d"]);
        assert_eq!(split(""), [""]);
    }

    #[test]
    fn values_are_compared() {
        assert!(is_same(&Cell::Price(10_020_000), "10.0200"));
        assert!(!is_same(&Cell::Price(10_020_000), "10.021"));
        assert!(is_same(&Cell::Number(7), "07"));
        assert!(!is_same(&Cell::None, "none"));
    }
}
