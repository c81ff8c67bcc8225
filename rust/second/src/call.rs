//! Calls as plain values, and lists of them in a form that can be printed and read back.

use std::fmt::{self, Display, Formatter};
use std::str::FromStr;

/// One call with its raw arguments.
#[derive(Clone, PartialEq, Eq, Debug)]
pub enum Call {
    /// Make a book.
    Make {
        /// The number of symbols.
        n: u32,
    },
    /// Add a symbol.
    AddSymbol {
        /// The symbol, of any length.
        symbol: Vec<u8>,
        /// The round lot in shares.
        round_lot: u32,
        /// The primary letter.
        primary: u8,
    },
    /// Open a line.
    OpenLine {
        /// The line.
        line: u32,
        /// Its letter.
        letter: u8,
    },
    /// Start of Day.
    StartDay,
    /// End of Day.
    EndDay,
    /// Take a block on a line.
    TakeBlock {
        /// The line.
        line: u32,
        /// The block, any bytes.
        block: Vec<u8>,
        /// The length of the answer buffer.
        answer_len: usize,
    },
    /// Read a symbol's publication.
    Read {
        /// The symbol, of any length.
        symbol: Vec<u8>,
        /// The length of the publication buffer.
        publication_len: usize,
    },
    /// Ask whether a price is protected.
    IsProtected {
        /// The symbol, of any length.
        symbol: Vec<u8>,
        /// The side mark.
        side: u8,
        /// The price.
        price: u64,
    },
    /// Ask how many bytes the conversion of a venue's block needs.
    ConvertLen {
        /// The venue's block, any bytes.
        block: Vec<u8>,
    },
    /// Convert a venue's block.
    Convert {
        /// The venue's block, any bytes.
        block: Vec<u8>,
        /// The length of the output.
        output_len: usize,
    },
    /// Tell the blocks and bytes of a symbol's snapshot.
    SnapshotLen {
        /// The symbol, of any length.
        symbol: Vec<u8>,
    },
    /// Write a symbol's snapshot.
    Snapshot {
        /// The symbol, of any length.
        symbol: Vec<u8>,
        /// The length of the output.
        output_len: usize,
    },
    /// Try an order.
    TryOrder {
        /// The symbol, of any length.
        symbol: Vec<u8>,
        /// The side mark.
        side: u8,
        /// The round lots wanted.
        lots: u32,
        /// The length of the output.
        steps_len: usize,
    },
    /// Set the allowance.
    SetAllowance {
        /// The blocks for each tick.
        blocks: u32,
        /// The shares, of any number.
        shares: Vec<u8>,
    },
    /// Start the next tick.
    Tick,
}

/// A list of calls on a fresh book of n symbols.
#[derive(Clone, PartialEq, Eq, Debug)]
pub struct List {
    /// The n of the fresh book.
    pub n: u32,
    /// The calls in their order.
    pub calls: Vec<Call>,
}

/// Bytes in hex, at least one character, so that no bytes are `-`.
struct Hex<'a>(&'a [u8]);

impl Display for Hex<'_> {
    fn fmt(&self, f: &mut Formatter) -> fmt::Result {
        if self.0.is_empty() {
            return f.write_str("-");
        }
        self.0.iter().try_for_each(|byte| write!(f, "{byte:02x}"))
    }
}

/// One line: the call's name, then its arguments, bytes in hex.
impl Display for Call {
    fn fmt(&self, f: &mut Formatter) -> fmt::Result {
        match self {
            Call::Make { n } => write!(f, "make {n}"),
            Call::AddSymbol {
                symbol,
                round_lot,
                primary,
            } => write!(f, "add {} {round_lot} {primary}", Hex(symbol)),
            Call::OpenLine { line, letter } => write!(f, "open {line} {letter}"),
            Call::StartDay => write!(f, "start"),
            Call::EndDay => write!(f, "end"),
            Call::TakeBlock {
                line,
                block,
                answer_len,
            } => write!(f, "take {line} {} {answer_len}", Hex(block)),
            Call::Read {
                symbol,
                publication_len,
            } => write!(f, "read {} {publication_len}", Hex(symbol)),
            Call::IsProtected {
                symbol,
                side,
                price,
            } => write!(f, "protected {} {side} {price}", Hex(symbol)),
            Call::ConvertLen { block } => write!(f, "convert_len {}", Hex(block)),
            Call::Convert { block, output_len } => {
                write!(f, "convert {} {output_len}", Hex(block))
            }
            Call::SnapshotLen { symbol } => write!(f, "snapshot-len {}", Hex(symbol)),
            Call::Snapshot { symbol, output_len } => {
                write!(f, "snapshot {} {output_len}", Hex(symbol))
            }
            Call::TryOrder {
                symbol,
                side,
                lots,
                steps_len,
            } => write!(f, "order {} {side} {lots} {steps_len}", Hex(symbol)),
            Call::SetAllowance { blocks, shares } => write!(f, "allow {blocks} {}", Hex(shares)),
            Call::Tick => write!(f, "tick"),
        }
    }
}

/// `fresh` with n, then a line for each call.
impl Display for List {
    fn fmt(&self, f: &mut Formatter) -> fmt::Result {
        writeln!(f, "fresh {}", self.n)?;
        self.calls.iter().try_for_each(|call| writeln!(f, "{call}"))
    }
}

/// The line that is no call.
#[derive(Clone, PartialEq, Eq, Debug)]
pub struct NoCall(pub String);

fn bytes(hex: &str) -> Option<Vec<u8>> {
    if hex == "-" {
        return Some(Vec::new());
    }
    (0..hex.len())
        .step_by(2)
        .map(|at| u8::from_str_radix(hex.get(at..at + 2)?, 16).ok())
        .collect()
}

impl FromStr for Call {
    type Err = NoCall;

    fn from_str(line: &str) -> Result<Call, NoCall> {
        let words: Vec<&str> = line.split_whitespace().collect();
        parse_call(&words).ok_or_else(|| NoCall(line.to_string()))
    }
}

fn parse_call(words: &[&str]) -> Option<Call> {
    Some(match words {
        ["make", n] => Call::Make { n: n.parse().ok()? },
        ["add", symbol, round_lot, primary] => Call::AddSymbol {
            symbol: bytes(symbol)?,
            round_lot: round_lot.parse().ok()?,
            primary: primary.parse().ok()?,
        },
        ["open", line, letter] => Call::OpenLine {
            line: line.parse().ok()?,
            letter: letter.parse().ok()?,
        },
        ["start"] => Call::StartDay,
        ["end"] => Call::EndDay,
        ["take", line, block, answer_len] => Call::TakeBlock {
            line: line.parse().ok()?,
            block: bytes(block)?,
            answer_len: answer_len.parse().ok()?,
        },
        ["read", symbol, publication_len] => Call::Read {
            symbol: bytes(symbol)?,
            publication_len: publication_len.parse().ok()?,
        },
        ["protected", symbol, side, price] => Call::IsProtected {
            symbol: bytes(symbol)?,
            side: side.parse().ok()?,
            price: price.parse().ok()?,
        },
        ["convert_len", block] => Call::ConvertLen {
            block: bytes(block)?,
        },
        ["convert", block, output_len] => Call::Convert {
            block: bytes(block)?,
            output_len: output_len.parse().ok()?,
        },
        ["snapshot-len", symbol] => Call::SnapshotLen {
            symbol: bytes(symbol)?,
        },
        ["snapshot", symbol, output_len] => Call::Snapshot {
            symbol: bytes(symbol)?,
            output_len: output_len.parse().ok()?,
        },
        ["order", symbol, side, lots, steps_len] => Call::TryOrder {
            symbol: bytes(symbol)?,
            side: side.parse().ok()?,
            lots: lots.parse().ok()?,
            steps_len: steps_len.parse().ok()?,
        },
        ["allow", blocks, shares] => Call::SetAllowance {
            blocks: blocks.parse().ok()?,
            shares: bytes(shares)?,
        },
        ["tick"] => Call::Tick,
        _ => return None,
    })
}

impl FromStr for List {
    type Err = NoCall;

    fn from_str(text: &str) -> Result<List, NoCall> {
        let mut lines = text.lines();
        let first = lines.next().unwrap_or_default();
        let n = first
            .strip_prefix("fresh ")
            .and_then(|n| n.parse().ok())
            .ok_or_else(|| NoCall(first.to_string()))?;
        let calls = lines.map(str::parse).collect::<Result<_, _>>()?;
        Ok(List { n, calls })
    }
}
