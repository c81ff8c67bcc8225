//! The tape program, written from document 01 ("Tape program") over the second engine.

use std::fmt::{self, Display, Formatter};

use second::terms::{number, ANSWER_LEN, ENTRY_LEN, PUBLICATION_LEN, SYMBOL_LEN};
use second::{log, Call, Engine, QuoteBook, Report};

/// What the program prints when it reads these bytes: blocks and their messages as they come, and
/// each symbol once, last.
pub fn output(tape: &[u8]) -> String {
    let mut printed = String::new();
    match play(&mut Input(tape), &mut printed, &mut Vec::new()) {
        Ok(Played { book, symbols }) => {
            for symbol in symbols {
                print_symbol(&book, symbol, &mut printed);
            }
        }
        Err(stop) => print(&mut printed, stop),
    }
    printed
}

/// The symbols' publications at the end, in the order added; none if the program stops early.
pub fn publications(tape: &[u8]) -> Vec<[u8; PUBLICATION_LEN]> {
    match play(&mut Input(tape), &mut String::new(), &mut Vec::new()) {
        Ok(Played { book, symbols }) => symbols
            .into_iter()
            .map(|symbol| publication(&book, symbol))
            .collect(),
        Err(_) => Vec::new(),
    }
}

/// The log (docs/LOG.md) of the calls that the program makes on a tape: those of the setup, to the first
/// that is refused, the blocks, and a read of each symbol if the tape is not cut. Tapes have no times.
/// None if no book is made.
pub fn log(tape: &[u8]) -> Option<Vec<u8>> {
    let mut calls = Vec::new();
    let played = play(&mut Input(tape), &mut String::new(), &mut calls);
    let n = tape.first().filter(|n| (1..=SYMBOLS_MAX).contains(*n))?;
    let symbols = played.map_or(Vec::new(), |played| played.symbols);
    calls.extend(symbols.into_iter().map(|symbol| Call::Read {
        symbol: symbol.to_vec(),
        publication_len: PUBLICATION_LEN,
    }));
    let mut log = log::head(*n, log::REQUESTS);
    for call in &calls {
        log.extend(log::write(call, 0));
    }
    Some(log)
}

/// The book at the end of a tape, and its symbols in the order added.
struct Played<'a> {
    book: Engine,
    symbols: Vec<&'a [u8]>,
}

/// Why the program stops before it prints the symbols.
enum Stop {
    /// The setup was refused with this number.
    Setup(u8),
    /// The input ends in the middle of something.
    Cut,
}

impl Display for Stop {
    fn fmt(&self, f: &mut Formatter) -> fmt::Result {
        match self {
            Stop::Setup(number) => write!(f, "setup {number}"),
            Stop::Cut => write!(f, "cut"),
        }
    }
}

/// What is left of the input.
struct Input<'a>(&'a [u8]);

impl<'a> Input<'a> {
    fn take(&mut self, len: usize) -> Result<&'a [u8], Stop> {
        let (taken, rest) = self.0.split_at_checked(len).ok_or(Stop::Cut)?;
        self.0 = rest;
        Ok(taken)
    }

    fn byte(&mut self) -> Result<u8, Stop> {
        Ok(self.take(1)?[0])
    }

    /// A length of two bytes.
    fn length(&mut self) -> Result<usize, Stop> {
        Ok(usize::from(self.byte()?) << 8 | usize::from(self.byte()?))
    }
}

fn print(printed: &mut String, line: impl Display) {
    printed.push_str(&format!("{line}\n"));
}

/// Symbols on a tape.
const SYMBOLS_MAX: u8 = 8;

/// Plays a tape. What the program prints before the symbols is added to one list, the calls that it makes
/// on its book to another.
fn play<'a>(
    input: &mut Input<'a>,
    printed: &mut String,
    calls: &mut Vec<Call>,
) -> Result<Played<'a>, Stop> {
    let count = input.byte()?;
    if !(1..=SYMBOLS_MAX).contains(&count) {
        return Err(Stop::Setup(number::MAKE));
    }
    let mut book = Engine::fresh(u32::from(count)).ok_or(Stop::Setup(number::MAKE))?;
    let symbols = add_symbols(input, &mut book, count, calls)?;
    open_lines(input, &mut book, calls)?;
    calls.push(Call::StartDay);
    done(book.start_day())?;
    while !input.0.is_empty() {
        play_record(input, &mut book, printed, calls)?;
    }
    Ok(Played { book, symbols })
}

fn add_symbols<'a>(
    input: &mut Input<'a>,
    book: &mut Engine,
    count: u8,
    calls: &mut Vec<Call>,
) -> Result<Vec<&'a [u8]>, Stop> {
    let mut symbols = Vec::new();
    for _ in 0..count {
        let symbol = input.take(SYMBOL_LEN)?;
        let (round_lot, primary) = (input.byte()?, input.byte()?);
        let round_lot = u32::from(round_lot);
        calls.push(Call::AddSymbol {
            symbol: symbol.to_vec(),
            round_lot,
            primary,
        });
        done(book.add_symbol(symbol, round_lot, primary))?;
        symbols.push(symbol);
    }
    Ok(symbols)
}

fn open_lines(input: &mut Input, book: &mut Engine, calls: &mut Vec<Call>) -> Result<(), Stop> {
    for _ in 0..input.byte()? {
        let line = u32::from(input.byte()?);
        let letter = input.byte()?;
        calls.push(Call::OpenLine { line, letter });
        done(book.open_line(line, letter))?;
    }
    Ok(())
}

fn done(number: u8) -> Result<(), Stop> {
    match number {
        number::DONE => Ok(()),
        _ => Err(Stop::Setup(number)),
    }
}

/// A record that is there whole goes to the book; `block` and a `msg` for each message.
fn play_record(
    input: &mut Input,
    book: &mut Engine,
    printed: &mut String,
    calls: &mut Vec<Call>,
) -> Result<(), Stop> {
    let line = input.byte()?;
    let len = input.length()?;
    let block = input.take(len)?;
    calls.push(Call::TakeBlock {
        line: u32::from(line),
        block: block.to_vec(),
        answer_len: ANSWER_LEN,
    });
    let mut answer = [0; ANSWER_LEN];
    let report = book.take_block(u32::from(line), block, &mut answer);
    let Report {
        number,
        gap,
        expected,
        ..
    } = report;
    print(
        printed,
        format_args!("block {line} {number} {gap} {expected}"),
    );
    let messages = report.accepted + report.partly + report.rejected;
    for told in answer.chunks_exact(4).take(messages as usize) {
        let [index, code, flags] = [told[0], told[1], told[2]];
        print(printed, format_args!("msg {index} {code} {flags}"));
    }
    Ok(())
}

/// What the entries are called, in the order of the publication.
const ENTRIES: [&str; 6] = ["NB", "NO", "FB", "FO", "OB", "OO"];

/// `sym` and the six entries of a symbol.
fn print_symbol(book: &Engine, symbol: &[u8], printed: &mut String) {
    print(printed, format_args!("sym {}", text(symbol)));
    let publication = publication(book, symbol);
    for (kind, entry) in ENTRIES.iter().zip(publication.chunks_exact(ENTRY_LEN)) {
        print(printed, format_args!("{kind} {}", fields(kind, entry)));
    }
}

fn publication(book: &Engine, symbol: &[u8]) -> [u8; PUBLICATION_LEN] {
    let mut publication = [0; PUBLICATION_LEN];
    book.read(symbol, &mut publication);
    publication
}

/// Name, condition, price and size of an entry.
fn fields(kind: &str, entry: &[u8]) -> String {
    let name = &entry[..4];
    let (name, condition) = match kind {
        _ if name == b"    " => return "- - 0 0".to_string(),
        "NB" | "NO" => (text(&name[..1]), text(&name[1..2])),
        "FB" | "FO" => (text(name), "R".to_string()),
        _ => (text(name), "-".to_string()),
    };
    let number = |bytes: &[u8]| {
        bytes
            .iter()
            .fold(0, |number, &byte| number << 8 | u64::from(byte))
    };
    let (price, size) = (number(&entry[4..12]), number(&entry[12..]));
    format!("{name} {condition} {price} {size}")
}

/// Bytes without their trailing spaces. Names hold printable bytes only.
fn text(bytes: &[u8]) -> String {
    String::from_utf8_lossy(bytes)
        .trim_end_matches(' ')
        .to_string()
}
