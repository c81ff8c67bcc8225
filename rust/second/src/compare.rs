//! Running one list of calls on several books and comparing all that can be seen of them.

use std::fmt::{self, Display, Formatter};

use crate::call::{Call, List};
use crate::quote_book::{Protected, QuoteBook, Report, SnapshotSize, Tried};
use crate::terms::{ANSWER_LEN, PUBLICATION_LEN};
use crate::venue::Converted;

/// Gives a fresh book of n symbols, n being 1 to 64.
pub type Fresh = fn(u32) -> Box<dyn QuoteBook>;

/// All that can be seen of a book at one call.
#[derive(Clone, PartialEq, Eq, Debug)]
pub struct Observed {
    /// The call's number.
    pub number: u8,
    /// What the block call reports.
    pub report: Option<Report>,
    /// What the query of T-06 reports.
    pub protected: Option<Protected>,
    /// What a conversion, or the question for its length, answers.
    pub converted: Option<Converted>,
    /// What the calls of T-12 report.
    pub snapshot: Option<SnapshotSize>,
    /// What trying an order reports.
    pub tried: Option<Tried>,
    /// Every byte of the buffer lent to the call, and of the guards around it.
    pub buffer: Vec<u8>,
    /// What a read afterwards gives for each symbol that the list adds: number and buffer.
    pub publications: Vec<(u8, Vec<u8>)>,
    /// The record afterwards of each line that the list opens, as a refused block reports it.
    pub records: Vec<Report>,
}

/// Bytes in front of and behind each lent buffer.
const GUARD: usize = 16;

/// A buffer of a pattern, with guards of the same pattern around the part that is lent.
fn patterned(len: usize) -> Vec<u8> {
    (0..len + 2 * GUARD).map(|at| 0xA5 ^ at as u8).collect()
}

fn lent(buffer: &mut [u8]) -> &mut [u8] {
    let end = buffer.len() - GUARD;
    &mut buffer[GUARD..end]
}

/// The bytes lent to a call, without the guards.
pub fn lent_part(buffer: &[u8]) -> &[u8] {
    &buffer[GUARD..buffer.len() - GUARD]
}

/// The symbols and lines that a list mentions.
struct Watched<'a> {
    symbols: Vec<&'a [u8]>,
    lines: Vec<u32>,
}

impl<'a> Watched<'a> {
    fn of(list: &'a List) -> Watched<'a> {
        let mut watched = Watched {
            symbols: Vec::new(),
            lines: Vec::new(),
        };
        for call in &list.calls {
            match call {
                Call::AddSymbol { symbol, .. } if !watched.symbols.contains(&&symbol[..]) => {
                    watched.symbols.push(symbol);
                }
                Call::OpenLine { line, .. } if !watched.lines.contains(line) => {
                    watched.lines.push(*line);
                }
                _ => {}
            }
        }
        watched
    }
}

/// Makes one call and looks at the book afterwards. A line's record is seen in the report of an
/// empty block, which is refused and changes nothing.
fn observe_call(book: &mut dyn QuoteBook, call: &Call, watched: &Watched) -> Observed {
    let mut report = None;
    let mut protected = None;
    let mut converted = None;
    let mut snapshot = None;
    let mut tried = None;
    let mut buffer = Vec::new();
    let number = match call {
        Call::Make { n } => book.make(*n),
        Call::AddSymbol {
            symbol,
            round_lot,
            primary,
        } => book.add_symbol(symbol, *round_lot, *primary),
        Call::OpenLine { line, letter } => book.open_line(*line, *letter),
        Call::StartDay => book.start_day(),
        Call::EndDay => book.end_day(),
        Call::TakeBlock {
            line,
            block,
            answer_len,
        } => {
            buffer = patterned(*answer_len);
            let taken = book.take_block(*line, block, lent(&mut buffer));
            report = Some(taken);
            taken.number
        }
        Call::Read {
            symbol,
            publication_len,
        } => {
            buffer = patterned(*publication_len);
            book.read(symbol, lent(&mut buffer))
        }
        Call::IsProtected {
            symbol,
            side,
            price,
        } => {
            let asked = book.is_protected(symbol, *side, *price);
            protected = Some(asked);
            asked.number
        }
        Call::ConvertLen { block } => {
            let told = book.convert_len(block);
            converted = Some(told);
            told.number
        }
        Call::Convert { block, output_len } => {
            buffer = patterned(*output_len);
            let told = book.convert(block, lent(&mut buffer));
            converted = Some(told);
            told.number
        }
        Call::SnapshotLen { symbol } => {
            let size = book.snapshot_len(symbol);
            snapshot = Some(size);
            size.number
        }
        Call::Snapshot { symbol, output_len } => {
            buffer = patterned(*output_len);
            let size = book.snapshot(symbol, lent(&mut buffer));
            snapshot = Some(size);
            size.number
        }
        Call::TryOrder {
            symbol,
            side,
            lots,
            steps_len,
        } => {
            buffer = patterned(*steps_len);
            let told = book.try_order(symbol, *side, *lots, lent(&mut buffer));
            tried = Some(told);
            told.number
        }
        Call::SetAllowance { blocks, shares } => book.set_allowance(*blocks, shares),
        Call::Tick => book.tick(),
    };
    let publications = watched.symbols.iter().map(|symbol| {
        let mut publication = patterned(PUBLICATION_LEN);
        (book.read(symbol, lent(&mut publication)), publication)
    });
    let publications = publications.collect();
    let mut answer = [0; ANSWER_LEN];
    let records = watched
        .lines
        .iter()
        .map(|&line| book.take_block(line, &[], &mut answer));
    Observed {
        number,
        report,
        protected,
        converted,
        snapshot,
        tried,
        buffer,
        publications,
        records: records.collect(),
    }
}

/// Runs a list on a fresh book.
pub fn observe(fresh: Fresh, list: &List) -> Vec<Observed> {
    let watched = Watched::of(list);
    let mut book = fresh(list.n);
    list.calls
        .iter()
        .map(|call| observe_call(book.as_mut(), call, &watched))
        .collect()
}

/// The first call after which a book does not look as expected.
#[derive(Clone, Debug)]
pub struct Difference {
    /// The position of the call in its list.
    pub at: usize,
    /// What the reference showed.
    pub expected: Observed,
    /// What the book showed.
    pub observed: Observed,
}

/// Runs a list on a fresh book up to the first call that does not look as expected.
pub fn first_difference(expected: &[Observed], fresh: Fresh, list: &List) -> Option<Difference> {
    let watched = Watched::of(list);
    let mut book = fresh(list.n);
    list.calls
        .iter()
        .zip(expected)
        .enumerate()
        .find_map(|(at, (call, expected))| {
            let observed = observe_call(book.as_mut(), call, &watched);
            (observed != *expected).then(|| Difference {
                at,
                expected: expected.clone(),
                observed,
            })
        })
}

/// Runs a list on two fresh books.
pub fn compare(reference: Fresh, other: Fresh, list: &List) -> Option<Difference> {
    first_difference(&observe(reference, list), other, list)
}

impl Display for Difference {
    fn fmt(&self, f: &mut Formatter) -> fmt::Result {
        writeln!(f, "at call {} (from 0):", self.at)?;
        let (expected, observed) = (&self.expected, &self.observed);
        if observed.number != expected.number {
            let (number, expected) = (observed.number, expected.number);
            writeln!(f, "the number is {number}, expected {expected}")?;
        }
        if observed.report != expected.report {
            let (report, expected) = (observed.report, expected.report);
            writeln!(f, "the report is {report:?}, expected {expected:?}")?;
        }
        if observed.protected != expected.protected {
            let (answer, expected) = (observed.protected, expected.protected);
            writeln!(f, "the query tells {answer:?}, expected {expected:?}")?;
        }
        if observed.converted != expected.converted {
            let (answer, expected) = (observed.converted, expected.converted);
            writeln!(
                f,
                "the conversion answers {answer:?}, expected {expected:?}"
            )?;
        }
        if observed.snapshot != expected.snapshot {
            let (size, expected) = (observed.snapshot, expected.snapshot);
            writeln!(f, "the snapshot is {size:?}, expected {expected:?}")?;
        }
        if observed.tried != expected.tried {
            let (told, expected) = (observed.tried, expected.tried);
            writeln!(f, "the order tells {told:?}, expected {expected:?}")?;
        }
        write_bytes(f, "the buffer", &observed.buffer, &expected.buffer)?;
        let pairs = observed.publications.iter().zip(&expected.publications);
        for (i, ((number, publication), expected)) in pairs.enumerate() {
            if *number != expected.0 {
                writeln!(
                    f,
                    "a read of symbol {i} gives {number}, expected {}",
                    expected.0
                )?;
            }
            let what = format!("the publication of symbol {i}");
            write_bytes(f, &what, publication, &expected.1)?;
        }
        let pairs = observed.records.iter().zip(&expected.records);
        for (i, (record, expected)) in pairs.enumerate() {
            if record != expected {
                writeln!(
                    f,
                    "the record of line {i} is {record:?}, expected {expected:?}"
                )?;
            }
        }
        Ok(())
    }
}

/// The bytes of a guarded buffer that are not as expected, by their positions in the lent part.
fn write_bytes(f: &mut Formatter, what: &str, bytes: &[u8], expected: &[u8]) -> fmt::Result {
    for (at, (byte, expected)) in bytes.iter().zip(expected).enumerate() {
        if byte != expected {
            let at = at as isize - GUARD as isize;
            writeln!(
                f,
                "byte {at} of {what} is {byte:02x}, expected {expected:02x}"
            )?;
        }
    }
    Ok(())
}
