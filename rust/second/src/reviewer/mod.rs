//! The reviewer of document 01 ("The reviewer's history").
//!
//! It holds n, the symbols with their round lots and primary letters, the lines, the day and a
//! history: the bytes of each accepted message, and of a partly accepted Q K its round part. It keeps no quotes, makers,
//! levels or entries. Whatever it answers is worked out anew from the history, by the plainest way.
//!
//! [`Reviewer`] holds all of the history. [`LongReviewer`] leaves out of it what no answer can depend
//! on any more, so that it can follow a day of any length.

mod account;
mod best;
mod block;
mod fields;
mod history;
mod judge;
mod snapshot;

use crate::quote_book::{Protected, QuoteBook, Report, SnapshotSize, Tried};
use crate::terms::{number, ANSWER_LEN, ENTRY_LEN, LINES, PUBLICATION_LEN, ROUND_LOTS, SYMBOL_LEN};
use crate::venue::{self, Converted};
use best::{order_steps, protection, publication};
use fields::{is_symbol, symbol_of, Kind, Side};
pub use history::{History, Shortened};
use judge::is_partly_accepted;

/// The reviewer with the whole history.
pub type Reviewer = Review<Vec<Vec<u8>>>;

/// The reviewer with a shortened history.
pub type LongReviewer = Review<Shortened<8>>;

/// The reviewer of one book.
pub struct Review<H> {
    n: u32,
    symbols: Vec<Listed>,
    lines: Vec<Line>,
    day_open: bool,
    allowance: Option<Allowance>,
    history: H,
    seen: Vec<Seen>,
}

/// What a symbol publishes behind a message.
#[derive(Clone, Copy, PartialEq, Eq, Debug)]
pub struct Seen {
    /// The message's place in its block.
    pub message: usize,
    /// The symbol's place in the order added.
    pub symbol: usize,
    /// Its six entries.
    pub publication: [u8; PUBLICATION_LEN],
}

/// What check 86 reads: B, the shares, and the lines of the blocks charged in this tick.
struct Allowance {
    blocks: u32,
    shares: Vec<u8>,
    charged: Vec<u32>,
}

impl Allowance {
    /// "Charged, to its line's share first, then to the spare, which is B less all shares."
    fn has_left(&self, line: u32) -> bool {
        let charged =
            |line: u32| self.charged.iter().filter(|&&other| other == line).count() as u32;
        let share = |line: u32| u32::from(self.shares[line as usize]);
        let spare = self.blocks - (0..LINES as u32).map(share).sum::<u32>();
        let of_spare = |line: u32| charged(line).saturating_sub(share(line));
        charged(line) < share(line) || (0..LINES as u32).map(of_spare).sum::<u32>() < spare
    }
}

/// A listed symbol.
struct Listed {
    symbol: Vec<u8>,
    round_lot: u32,
    primary: u8,
}

/// A line's record; a line without a letter is not open.
#[derive(Clone)]
struct Line {
    letter: Option<u8>,
    expected: u32,
    count: u64,
}

/// "An opened line begins with 1 and 0."
const NEW_LINE: Line = Line {
    letter: None,
    expected: 1,
    count: 0,
};

impl<H: History> Review<H> {
    /// The reviewer starts with the make that gave the fresh book: none if n is not 1 to 64.
    pub fn fresh(n: u32) -> Option<Review<H>> {
        if !(1..=64).contains(&n) {
            return None;
        }
        Some(Review {
            n,
            symbols: Vec::new(),
            lines: vec![NEW_LINE; LINES],
            day_open: false,
            allowance: None,
            history: H::default(),
            seen: Vec::new(),
        })
    }

    fn listed(&self, symbol: &[u8]) -> Option<&Listed> {
        self.symbols.iter().find(|listed| listed.symbol == symbol)
    }

    /// Check 86.
    fn is_used_up(&self, line: u32) -> bool {
        let left = self
            .allowance
            .as_ref()
            .map(|allowance| allowance.has_left(line));
        left == Some(false)
    }

    /// The 96 bytes that the history gives for a symbol.
    fn publication(&self, symbol: &[u8]) -> [u8; PUBLICATION_LEN] {
        publication(&self.history.account(symbol))
    }

    /// What the symbols concerned published behind each accepted or partly accepted message of the last
    /// block.
    pub fn seen(&self) -> &[Seen] {
        &self.seen
    }

    /// Works message i of a block: its code and flags. What is accepted of it goes into the history.
    fn work(&mut self, letter: u8, i: usize, message: &[u8]) -> (u8, u8) {
        let code = judge::code(letter, message, &self.symbols, &self.history);
        let part = if code == 0 {
            message
        } else if is_partly_accepted(message, code) {
            &message[..56]
        } else {
            return (code, 0);
        };
        let before = self.publications_concerned(message);
        self.history.push(part);
        let after = self.publications_concerned(message);
        let seen = after.iter().map(|&(symbol, publication)| Seen {
            message: i,
            symbol,
            publication,
        });
        self.seen.extend(seen);
        (code, changes(&before, &after))
    }

    /// The publications whose changes a message's flags tell: its symbol's, and for FINRA Open and
    /// Close every symbol's.
    fn publications_concerned(&self, message: &[u8]) -> Vec<Published> {
        let kind = Kind::of(message);
        let in_any_symbol = matches!(kind, Some(Kind::FinraClose | Kind::FinraOpen));
        let named = symbol_of(message);
        self.symbols
            .iter()
            .enumerate()
            .filter(|(_, listed)| in_any_symbol || named == Some(&listed.symbol))
            .map(|(place, listed)| (place, self.publication(&listed.symbol)))
            .collect()
    }
}

/// A symbol's place and what it publishes.
type Published = (usize, [u8; PUBLICATION_LEN]);

/// 1 national bid, 2 national offer, 4 FINRA bid, 8 FINRA offer, 16 odd bid, 32 odd offer, set
/// exactly if that entry changed in one of the publications.
fn changes(before: &[Published], after: &[Published]) -> u8 {
    let mut flags = 0;
    for ((_, old), (_, new)) in before.iter().zip(after) {
        for (i, flag) in [1, 2, 4, 8, 16, 32].into_iter().enumerate() {
            let entry = i * ENTRY_LEN..(i + 1) * ENTRY_LEN;
            if old[entry.clone()] != new[entry] {
                flags |= flag;
            }
        }
    }
    flags
}

/// "Letters are A to Z without S."
fn is_letter(byte: u8) -> bool {
    byte.is_ascii_uppercase() && byte != b'S'
}

impl<H: History> QuoteBook for Review<H> {
    fn make(&mut self, n: u32) -> u8 {
        if !(1..=64).contains(&n) {
            return number::MAKE;
        }
        if n != self.n {
            // The lent memory has the length of the fresh book's n.
            return number::MAKE;
        }
        self.symbols.clear();
        self.lines = vec![NEW_LINE; LINES];
        self.day_open = false;
        self.allowance = None;
        self.history.clear();
        number::DONE
    }

    fn add_symbol(&mut self, symbol: &[u8], round_lot: u32, primary: u8) -> u8 {
        if !is_symbol(symbol) {
            return number::SYMBOL_MALFORMED;
        }
        if !ROUND_LOTS.contains(&round_lot) {
            return number::ROUND_LOT;
        }
        if !is_letter(primary) {
            return number::PRIMARY;
        }
        if self.listed(symbol).is_some() {
            return number::SYMBOL_LISTED;
        }
        if self.symbols.len() as u32 >= self.n {
            return number::BOOK_FULL;
        }
        self.symbols.push(Listed {
            symbol: symbol.to_vec(),
            round_lot,
            primary,
        });
        number::DONE
    }

    fn open_line(&mut self, line: u32, letter: u8) -> u8 {
        if line > 63 || !is_letter(letter) {
            return number::LINE_OR_LETTER;
        }
        let record = &mut self.lines[line as usize];
        if record.letter.is_some() {
            return number::LINE_OPEN;
        }
        *record = Line {
            letter: Some(letter),
            ..NEW_LINE
        };
        number::DONE
    }

    fn start_day(&mut self) -> u8 {
        if self.day_open {
            return number::DAY_OPEN;
        }
        self.history.clear();
        for line in &mut self.lines {
            line.expected = 1;
            line.count = 0;
        }
        self.day_open = true;
        number::DONE
    }

    fn end_day(&mut self) -> u8 {
        if !self.day_open {
            return number::DAY_CLOSED;
        }
        self.day_open = false;
        number::DONE
    }

    fn set_allowance(&mut self, blocks: u32, shares: &[u8]) -> u8 {
        if blocks == 0 || blocks > 255 {
            return number::ALLOWANCE;
        }
        let sum: u32 = shares.iter().map(|&share| u32::from(share)).sum();
        if shares.len() != LINES || sum > blocks {
            return number::SHARES;
        }
        self.allowance = Some(Allowance {
            blocks,
            shares: shares.to_vec(),
            charged: Vec::new(),
        });
        number::DONE
    }

    fn tick(&mut self) -> u8 {
        if let Some(allowance) = &mut self.allowance {
            allowance.charged.clear();
        }
        number::DONE
    }

    fn take_block(&mut self, line: u32, block: &[u8], answer: &mut [u8]) -> Report {
        self.seen.clear();
        let mut report = Report::default();
        if answer.len() < ANSWER_LEN {
            report.number = number::BUFFER_SHORT;
            return report;
        }
        let Some(letter) = self.lines.get(line as usize).and_then(|line| line.letter) else {
            report.number = number::LINE_NOT_OPEN;
            return report;
        };
        let expected = self.lines[line as usize].expected;
        match block::check(block, self.day_open, expected) {
            Err(number) => report.number = number,
            Ok(taken) if taken.next_expected.is_some() && self.is_used_up(line) => {
                report.number = number::USED_UP;
            }
            Ok(taken) => {
                if let (Some(_), Some(allowance)) = (taken.next_expected, &mut self.allowance) {
                    allowance.charged.push(line);
                }
                report.number = if taken.gap == 0 { 0 } else { number::GAP };
                report.gap = taken.gap;
                for (i, message) in taken.messages.iter().enumerate() {
                    let (code, flags) = self.work(letter, i, message);
                    answer[4 * i] = i as u8;
                    answer[4 * i + 1] = code;
                    answer[4 * i + 2] = flags;
                    answer[4 * i + 3] = 0;
                    if code == 0 {
                        report.accepted += 1;
                    } else if is_partly_accepted(message, code) {
                        report.partly += 1;
                    } else {
                        report.rejected += 1;
                    }
                }
                if let Some(next) = taken.next_expected {
                    let record = &mut self.lines[line as usize];
                    record.expected = next;
                    record.count = record.count.wrapping_add(taken.messages.len() as u64);
                }
            }
        }
        report.expected = self.lines[line as usize].expected;
        report.count = self.lines[line as usize].count;
        report
    }

    fn read(&self, symbol: &[u8], publication: &mut [u8]) -> u8 {
        if publication.len() < PUBLICATION_LEN {
            return number::BUFFER_SHORT;
        }
        if !is_symbol(symbol) || self.listed(symbol).is_none() {
            return number::SYMBOL_UNKNOWN;
        }
        publication[..PUBLICATION_LEN].copy_from_slice(&self.publication(symbol));
        number::DONE
    }

    fn snapshot_len(&self, symbol: &[u8]) -> SnapshotSize {
        if !is_symbol(symbol) || self.listed(symbol).is_none() {
            return SnapshotSize::refused(number::SYMBOL_UNKNOWN);
        }
        let blocks = snapshot::blocks(&self.history.account(symbol), symbol);
        SnapshotSize {
            number: number::DONE,
            blocks: blocks.len(),
            bytes: blocks.iter().map(Vec::len).sum(),
        }
    }

    fn snapshot(&self, symbol: &[u8], output: &mut [u8]) -> SnapshotSize {
        let size = self.snapshot_len(symbol);
        if size.number != number::DONE {
            return size;
        }
        if output.len() < size.bytes {
            return SnapshotSize::refused(number::SNAPSHOT_SHORT);
        }
        let blocks = snapshot::blocks(&self.history.account(symbol), symbol);
        output[..size.bytes].copy_from_slice(&blocks.concat());
        size
    }

    fn is_protected(&self, symbol: &[u8], side: u8, price: u64) -> Protected {
        if !is_symbol(symbol) || self.listed(symbol).is_none() {
            return Protected::refused(number::SYMBOL_UNKNOWN);
        }
        let side = match side {
            b'B' => Side::Bid,
            b'S' => Side::Offer,
            _ => return Protected::refused(number::SIDE),
        };
        let (yes, looked) = protection(&self.history.account(symbol), side, price);
        Protected {
            number: number::DONE,
            yes,
            looked,
        }
    }

    fn convert_len(&self, block: &[u8]) -> Converted {
        venue::convert_len::<{ venue::mistake::NONE }>(block)
    }

    /// By the symbols that the reviewer holds.
    fn convert(&self, block: &[u8], output: &mut [u8]) -> Converted {
        let lots = |symbol: &[u8; SYMBOL_LEN]| self.listed(symbol).map(|listed| listed.round_lot);
        venue::convert::<{ venue::mistake::NONE }>(block, &lots, output)
    }

    fn try_order(&self, symbol: &[u8], side: u8, lots: u32, steps: &mut [u8]) -> Tried {
        if !is_symbol(symbol) || self.listed(symbol).is_none() {
            return Tried::refused(number::SYMBOL_UNKNOWN);
        }
        let side = match side {
            b'B' => Side::Offer,
            b'S' => Side::Bid,
            _ => return Tried::refused(number::SIDE),
        };
        if !(1..=1_000_000).contains(&lots) {
            return Tried::refused(number::LOTS);
        }
        if steps.len() < 325 {
            return Tried::refused(number::STEPS_SHORT);
        }
        let account = self.history.account(symbol);
        let (played, unfilled) = order_steps(&account, side, lots);
        let mut at = 0;
        for &(letter, price, lots) in &played {
            steps[at] = letter;
            steps[at + 1..at + 9].copy_from_slice(&price.to_be_bytes());
            steps[at + 9..at + 13].copy_from_slice(&lots.to_be_bytes());
            at += 13;
        }
        Tried {
            number: number::DONE,
            steps: played.len() as u8,
            unfilled,
        }
    }
}
