//! The tape program's output as tables that a person reads.
//!
//! Every answer, change and best price comes from the output. The tape only tells what each
//! message was, and, played on the second engine, what put the national leaders ahead: the program
//! doesn't print that.

use second::build;
use second::terms::{ENTRY_LEN, PUBLICATION_LEN};

use crate::output::{Block, Entry, Message, Output, Symbol};
use crate::program;
use crate::words;
use crate::Tape;

/// Both tables: what the blocks did, and the best prices at the end.
pub fn tables(tape: &Tape, output: &Output) -> String {
    let came_in = columns("rrllllll", &block_rows(tape, output));
    let mut shown = format!("WHAT CAME IN\n\n{came_in}\n{LEGEND}");
    match &output.stopped {
        Some(stopped) => shown.push_str(&format!("\nThe program stopped early: {stopped}\n")),
        None => {
            let best = columns("lllrllllrll", &symbol_rows(tape, &output.symbols));
            shown.push_str(&format!("\nTHE BEST PRICES NOW\n\n{best}{BEST_LEGEND}"));
        }
    }
    shown
}

const LEGEND: &str = "\
Sizes are round lots; of odd lots, shares. A quote shows its condition, a maker its name.
Changed: which best bids (B) and offers (O) are new: national (N), FINRA's (F), of odd lots (O).
";

const BEST_LEGEND: &str = "\
By price, size, time or letter: what put a national leader ahead of the second best, if there is one.
";

/// The cells of a row. Empty ones at the end may be left out.
type Row = Vec<String>;

/// The rows as lines. Each column is as wide as its longest cell, and set left (l) or right (r).
fn columns(sides: &str, rows: &[Row]) -> String {
    let width = |column: usize| {
        let cells = rows.iter().filter_map(|row| row.get(column));
        cells.map(String::len).max().unwrap_or(0)
    };
    let mut lines = String::new();
    for row in rows {
        let mut line = String::new();
        for (column, (cell, side)) in row.iter().zip(sides.chars()).enumerate() {
            let width = width(column);
            match side {
                'r' => line.push_str(&format!("{cell:>width$}  ")),
                _ => line.push_str(&format!("{cell:<width$}  ")),
            }
        }
        lines.push_str(line.trim_end());
        lines.push('\n');
    }
    lines
}

fn row<const N: usize>(cells: [&str; N]) -> Row {
    cells.map(str::to_string).to_vec()
}

fn block_rows(tape: &Tape, output: &Output) -> Vec<Row> {
    let mut rows = vec![row([
        "line", "number", "symbol", "message", "bid", "offer", "changed", "answer",
    ])];
    for ((line, bytes), block) in tape.records.iter().zip(&output.blocks) {
        let letter = tape.lines.iter().find(|open| open.0 == *line);
        let letter = letter.map_or('-', |open| char::from(open.1));
        let first = rows.len();
        add_block(&mut rows, bytes, block);
        rows[first][0] = format!("{line} {letter}");
    }
    rows
}

/// A row if there is something to say about the block as a whole, then its messages.
fn add_block(rows: &mut Vec<Row>, bytes: &[u8], block: &Block) {
    let Block { number, gap, .. } = block;
    let whole = match number {
        0 => None,
        70 => Some(format!("GAP of {gap}, the block is taken (70)")),
        _ => Some(format!("REFUSED: {} ({number})", words::refusal(*number))),
    };
    let (sequence, messages) = build::split(bytes).unwrap_or_default();
    if let Some(whole) = whole {
        let first = sequence.to_string();
        rows.push(row(["", &first, "", "(block)", "", "", "", &whole]));
    }
    for (message, told) in messages.iter().zip(&block.messages) {
        let number = sequence.wrapping_add(u32::from(told.index));
        add_message(rows, number, message, told);
    }
}

/// A row, and one more for the odd part of a quote, if it has one.
fn add_message(rows: &mut Vec<Row>, number: u32, message: &[u8], told: &Message) {
    let kind = message.get(..2).unwrap_or_default();
    let symbol = match kind {
        [b'Q', _] | b"TS" => text(message, 20, 11),
        _ => String::new(),
    };
    let condition = text(message, 31, 1);
    let (what, [bid, offer]) = match kind {
        b"QK" => (format!("quote {condition}"), sides(message)),
        b"QU" => (
            format!("maker {} {condition}", text(message, 56, 4)),
            sides(message),
        ),
        b"QM" | b"QT" => (OddPart::ALONE.words(message), OddPart::ALONE.sides(message)),
        b"TS" => (words::status(message.get(31)), Default::default()),
        _ => (control(kind), Default::default()),
    };
    let [number, changed] = [number.to_string(), words::changed(told.flags)];
    let answer = answer(kind, told.code);
    rows.push(row([
        "", &number, &symbol, &what, &bid, &offer, &changed, &answer,
    ]));
    if kind == b"QK" && message.get(56..59) != Some(b" \0\0") {
        let [bid, offer] = OddPart::OF_QUOTE.sides(message);
        let what = format!("+ {}", OddPart::OF_QUOTE.words(message));
        rows.push(row(["", "", "", &what, &bid, &offer]));
    }
}

fn answer(kind: &[u8], code: u8) -> String {
    let fault = words::fault(code);
    match code {
        0 => "accepted".to_string(),
        60.. if kind == b"QK" => format!("PARTLY ACCEPTED: {fault} ({code})"),
        _ => format!("REJECTED: {fault} ({code})"),
    }
}

fn control(kind: &[u8]) -> String {
    match kind {
        b"CI" => "inquiry".to_string(),
        b"CT" => "line integrity".to_string(),
        b"CC" => "FINRA Close".to_string(),
        b"CO" => "FINRA Open".to_string(),
        b"C5" => "test".to_string(),
        _ => format!("type {}", String::from_utf8_lossy(kind)),
    }
}

/// Bytes of a message as text without trailing spaces; none if it is too short.
fn text(message: &[u8], at: usize, len: usize) -> String {
    let bytes = message.get(at..at + len).unwrap_or_default();
    String::from_utf8_lossy(bytes).trim_end().to_string()
}

fn number(message: &[u8], at: usize, len: usize) -> u64 {
    let bytes = message.get(at..at + len).unwrap_or_default();
    let digit = |number, &byte| number << 8 | u64::from(byte);
    bytes.iter().fold(0, digit)
}

/// Price and size at a place of a message.
fn shown(message: &[u8], at: usize) -> String {
    priced(number(message, at, 8), number(message, at + 8, 4))
}

fn priced(price: u64, size: u64) -> String {
    match (price, size) {
        (0, 0) => "-".to_string(),
        _ => format!("{} x {size}", words::decimal(price)),
    }
}

/// Bid and offer of a quote.
fn sides(message: &[u8]) -> [String; 2] {
    [shown(message, 32), shown(message, 44)]
}

/// Where an odd part lies in its message: the clear mark and both counts behind it, and the items.
struct OddPart {
    clear: usize,
    items: usize,
}

impl OddPart {
    const OF_QUOTE: OddPart = OddPart {
        clear: 56,
        items: 60,
    };
    const ALONE: OddPart = OddPart {
        clear: 31,
        items: 36,
    };

    fn words(&self, message: &[u8]) -> String {
        match text(message, self.clear, 1).as_str() {
            "" => "odd lots".to_string(),
            mark => format!("odd lots, clear {mark}"),
        }
    }

    /// The bids and the offers.
    fn sides(&self, message: &[u8]) -> [String; 2] {
        let bids = number(message, self.clear + 1, 1) as usize;
        let offers = number(message, self.clear + 2, 1) as usize;
        [(0, bids), (bids, bids + offers)].map(|(first, end)| {
            let item = |i| shown(message, self.items + 12 * i);
            match end - first {
                0 => String::new(),
                1 => item(first),
                count => format!("{}, {} more", item(first), count - 1),
            }
        })
    }
}

fn symbol_rows(tape: &Tape, symbols: &[Symbol]) -> Vec<Row> {
    let mut rows = vec![row(["symbol", "best", "bid", "", "", "", "", "offer"])];
    let reasons = program::publications(&tape.bytes());
    let mut reasons = reasons.iter().map(national_reasons);
    for Symbol { name, entries } in symbols {
        let [bid, offer] = reasons.next().unwrap_or_default();
        let kinds = [
            (name.as_str(), "national", [bid, offer]),
            ("", "FINRA", [""; 2]),
            ("", "odd lots", [""; 2]),
        ];
        for ((name, kind, by), pair) in kinds.into_iter().zip(entries.chunks_exact(2)) {
            let mut cells = row([name, kind]);
            cells.extend(entry_cells(&pair[0]));
            cells.extend(row([by[0], ""]));
            cells.extend(entry_cells(&pair[1]));
            cells.push(by[1].to_string());
            rows.push(cells);
        }
    }
    rows
}

/// What put the national bid and offer of a publication ahead, by the third bytes of their names.
fn national_reasons(publication: &[u8; PUBLICATION_LEN]) -> [&'static str; 2] {
    [2, ENTRY_LEN + 2].map(|at| words::reason(publication[at]))
}

/// Name with condition, price, size.
fn entry_cells(entry: &Option<Entry>) -> Row {
    match entry {
        None => row(["-", "", ""]),
        Some(entry) => {
            let condition = entry.condition.replace('-', "");
            let name = format!("{:<4} {condition}", entry.name);
            let price = words::decimal(entry.price);
            vec![name, price, format!("x {}", entry.size)]
        }
    }
}
