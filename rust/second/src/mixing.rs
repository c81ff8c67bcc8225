//! Lines in any arrival order (document 02, T-09): the blocks of some lines mixed in one order or
//! another, and what two mixings have to leave alike.

use std::collections::BTreeMap;

use crate::call::Call;
use crate::generate::Random;
use crate::quote_book::{QuoteBook, Report};
use crate::terms::{number, ANSWER_LEN, LINES, PUBLICATION_LEN};

/// A block on its line, with the length of its answer buffer.
#[derive(Clone, PartialEq, Eq, Debug)]
pub struct Received {
    /// The line.
    pub line: u32,
    /// The block, any bytes.
    pub block: Vec<u8>,
    /// The length of the answer buffer.
    pub answer_len: usize,
}

/// The blocks of each line, in their order.
#[derive(Clone, Default, Debug)]
pub struct Streams {
    lines: BTreeMap<u32, Vec<Received>>,
}

impl Streams {
    /// The blocks among some calls.
    pub fn of(calls: &[Call]) -> Streams {
        let mut streams = Streams::default();
        for call in calls {
            if let Call::TakeBlock {
                line,
                block,
                answer_len,
            } = call
            {
                streams.lines.entry(*line).or_default().push(Received {
                    line: *line,
                    block: block.clone(),
                    answer_len: *answer_len,
                });
            }
        }
        streams
    }

    /// A mixing of them, one to four blocks of a line at a time: "each line's blocks keep their order
    /// and the lengths of their answer buffers".
    pub fn mix(&self, random: &mut Random) -> Vec<&Received> {
        let mut left: Vec<&[Received]> = self.lines.values().map(Vec::as_slice).collect();
        let mut mixing = Vec::new();
        while !left.is_empty() {
            let line = random.below(left.len());
            let (next, rest) = left[line].split_at(left[line].len().min(1 + random.below(4)));
            mixing.extend(next);
            if rest.is_empty() {
                left.swap_remove(line);
            } else {
                left[line] = rest;
            }
        }
        mixing
    }
}

/// The calls without those that open a second line for a letter: "each letter has at most one line".
pub fn one_line_each(calls: &[Call]) -> Vec<Call> {
    let mut opened = Vec::new();
    let mut kept = calls.to_vec();
    kept.retain(|call| match call {
        Call::OpenLine { letter, .. } if opened.contains(letter) => false,
        Call::OpenLine { letter, .. } => {
            opened.push(*letter);
            true
        }
        _ => true,
    });
    kept
}

/// Makes the calls that use a book before blocks are mixed.
pub fn make_calls(book: &mut dyn QuoteBook, calls: &[Call]) {
    for call in calls {
        match call {
            Call::Make { n } => drop(book.make(*n)),
            Call::AddSymbol {
                symbol,
                round_lot,
                primary,
            } => drop(book.add_symbol(symbol, *round_lot, *primary)),
            Call::OpenLine { line, letter } => drop(book.open_line(*line, *letter)),
            Call::StartDay => drop(book.start_day()),
            Call::EndDay => drop(book.end_day()),
            Call::TakeBlock {
                line,
                block,
                answer_len,
            } => drop(book.take_block(*line, block, &mut vec![0; *answer_len])),
            Call::Read { .. }
            | Call::IsProtected { .. }
            | Call::ConvertLen { .. }
            | Call::Convert { .. }
            | Call::SnapshotLen { .. }
            | Call::Snapshot { .. }
            | Call::TryOrder { .. } => {}
            Call::SetAllowance { blocks, shares } => drop(book.set_allowance(*blocks, shares)),
            Call::Tick => drop(book.tick()),
        }
    }
}

/// What a line is told of one block: the report, and the answer buffer, which was a pattern.
#[derive(Clone, PartialEq, Eq, Debug)]
pub struct Told {
    /// What the block call reports.
    pub report: Report,
    /// Every byte of the answer buffer.
    pub answer: Vec<u8>,
}

impl Told {
    /// The four bytes of each message.
    pub fn messages(&self) -> impl Iterator<Item = &[u8]> {
        let Report {
            accepted,
            partly,
            rejected,
            ..
        } = self.report;
        let count = (accepted + partly + rejected) as usize;
        self.answer.chunks_exact(4).take(count)
    }

    /// The same without change flags.
    fn without_flags(&self) -> Told {
        let mut told = self.clone();
        let count = self.messages().count();
        for message in told.answer.chunks_exact_mut(4).take(count) {
            message[2] = 0;
        }
        told
    }
}

/// What each line is told, block by block.
pub type ToldByLine = BTreeMap<u32, Vec<Told>>;

/// Gives the blocks to a book, with no other call between.
pub fn run(book: &mut dyn QuoteBook, mixing: &[&Received]) -> ToldByLine {
    let mut told = ToldByLine::new();
    for received in mixing {
        let mut answer: Vec<u8> = (0..received.answer_len).map(|at| 0xA5 ^ at as u8).collect();
        let report = book.take_block(received.line, &received.block, &mut answer);
        told.entry(received.line)
            .or_default()
            .push(Told { report, answer });
    }
    told
}

/// Whether a block was refused with 86. T-14: two mixings are compared where none was, and "if one
/// mixing has none, none has".
pub fn has_used_up(told: &ToldByLine) -> bool {
    let mut blocks = told.values().flatten();
    blocks.any(|told| told.report.number == number::USED_UP)
}

/// How many messages have other change flags in two mixings, or what else differs of what the lines
/// are told.
pub fn compare(first: &ToldByLine, second: &ToldByLine) -> Result<usize, String> {
    let mut flags = 0;
    for (line, told) in first {
        let others = second.get(line).map_or(&[][..], Vec::as_slice);
        if told.len() != others.len() {
            return Err(format!("line {line} has {} blocks", others.len()));
        }
        for (at, (told, other)) in told.iter().zip(others).enumerate() {
            if told.without_flags() != other.without_flags() {
                let (told, other) = (told.without_flags(), other.without_flags());
                return Err(format!("line {line}, block {at}: {told:?}, then {other:?}"));
            }
            let pairs = told.messages().zip(other.messages());
            flags += pairs.filter(|(told, other)| told[2] != other[2]).count();
        }
    }
    Ok(flags)
}

/// What a book shows at the end: publications and line records.
#[derive(Clone, PartialEq, Eq, Debug)]
pub struct Shown {
    /// A read of each of some symbols: number and buffer.
    pub publications: Vec<(u8, [u8; PUBLICATION_LEN])>,
    /// Each line's record, as a refused block reports it.
    pub records: Vec<Report>,
}

impl Shown {
    /// Looks at a book. The empty blocks that show the records are refused and change nothing.
    pub fn of(book: &mut dyn QuoteBook, symbols: &[Vec<u8>]) -> Shown {
        let read = |symbol: &Vec<u8>| {
            let mut publication = [0; PUBLICATION_LEN];
            (book.read(symbol, &mut publication), publication)
        };
        let publications = symbols.iter().map(read).collect();
        let lines = 0..LINES as u32;
        let records = lines.map(|line| book.take_block(line, &[], &mut [0; ANSWER_LEN]));
        Shown {
            publications,
            records: records.collect(),
        }
    }
}
