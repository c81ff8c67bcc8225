//! The engine: native structs, six kept entries for each symbol, no allocation while a block is
//! taken.

mod allowance;
mod block;
mod bytes;
mod candidate;
mod directory;
mod message;
pub mod mistake;
mod odd_part;
mod order;
mod page;
mod page_side;
mod quote;
mod ranking;
mod snapshot;
mod take;
mod update;

use std::marker::PhantomData;

use crate::quote_book::{Protected, QuoteBook, Report, SnapshotSize, Tried};
use crate::terms::{
    number, FINRA, LINES, LOTS_MAX, PROCESSOR, PUBLICATION_LEN, ROUND_LOTS, STEPS_LEN, STEP_LEN,
    SYMBOLS_MAX,
};
use crate::venue::{self, Converted};
use allowance::Allowance;
use candidate::Side;
use directory::{well_formed, Directory, Symbol};
use page::Page;
use update::Touched;
pub use update::{FollowLeader, Recompute, Update};

/// The engine that works out a touched symbol's entries anew.
pub type Engine = Book<Recompute, { mistake::NONE }>;

/// The engine that ranks a side again only when its leader worsens or leaves.
pub type Incremental = Book<FollowLeader, { mistake::NONE }>;

/// A book of native structs, under a way to keep the entries and a planted mistake (0 for none).
pub struct Book<U, const MISTAKE: u8> {
    /// The n that the lent memory has room for.
    n: u32,
    /// The listed symbols' pages in the order added.
    pages: Vec<Page>,
    directory: Directory,
    lines: [Line; LINES],
    day_open: bool,
    allowance: Option<Allowance>,
    update: PhantomData<U>,
}

/// A line's record.
#[derive(Clone, Copy)]
struct Line {
    /// The line's letter, if it is open.
    letter: Option<u8>,
    expected: u32,
    count: u64,
}

impl Line {
    const CLOSED: Line = Line::starting(None);

    /// A line begins with 1 and 0, when it is opened and at Start of Day.
    const fn starting(letter: Option<u8>) -> Line {
        Line {
            letter,
            expected: 1,
            count: 0,
        }
    }
}

impl<U: Update, const M: u8> Book<U, M> {
    /// A fresh book: memory for n symbols in which make has just answered 0. There is none if n is
    /// not 1 to 64.
    pub fn fresh(n: u32) -> Option<Self> {
        (1..=SYMBOLS_MAX).contains(&n).then(|| Self::large(n))
    }

    /// A fresh book for as many symbols as asked, also more than 64, by the same rules: what a shelf of
    /// books is compared with.
    pub fn large(n: u32) -> Self {
        Book {
            n,
            pages: Vec::with_capacity(n as usize),
            directory: Directory::empty(n),
            lines: [Line::CLOSED; LINES],
            day_open: false,
            allowance: None,
            update: PhantomData,
        }
    }

    /// The bytes of a book for n symbols: the book itself, its directory and its pages.
    pub fn memory(n: u32) -> usize {
        size_of::<Self>() + Directory::memory(n) + n as usize * size_of::<Page>()
    }
}

impl<U: Update, const M: u8> QuoteBook for Book<U, M> {
    /// The memory keeps its length, so n has to be the fresh book's.
    fn make(&mut self, n: u32) -> u8 {
        if n != self.n {
            return number::MAKE;
        }
        self.pages.clear();
        self.directory = Directory::empty(n);
        if M != mistake::MAKE_KEEPS_LINES {
            self.lines = [Line::CLOSED; LINES];
        }
        self.day_open = false;
        if M != mistake::MAKE_KEEPS_ALLOWANCE {
            self.allowance = None;
        }
        number::DONE
    }

    /// Checks 3, 6, 75, 4, 5.
    fn add_symbol(&mut self, symbol: &[u8], round_lot: u32, primary: u8) -> u8 {
        let Some(symbol) = as_symbol(symbol) else {
            return number::SYMBOL_MALFORMED;
        };
        let round_lot = match M {
            mistake::LOT_CUT => round_lot % 256,
            _ => round_lot,
        };
        let listed = self.directory.find(symbol).is_some();
        if M == mistake::LOT_AFTER_LISTED && listed {
            return number::SYMBOL_LISTED;
        }
        if !ROUND_LOTS.contains(&round_lot) {
            return number::ROUND_LOT;
        }
        if M == mistake::PRIMARY_AFTER_LISTED && listed {
            return number::SYMBOL_LISTED;
        }
        let is_primary = match primary {
            PROCESSOR => M == mistake::PROCESSOR_IS_PRIMARY,
            FINRA => M != mistake::FINRA_NOT_PRIMARY,
            _ => primary.is_ascii_uppercase() || M == mistake::PRIMARY_UNCHECKED,
        };
        if !is_primary {
            return number::PRIMARY;
        }
        if listed {
            return number::SYMBOL_LISTED;
        }
        if self.pages.len() == self.n as usize {
            return number::BOOK_FULL;
        }
        self.directory.list(symbol);
        self.pages.push(Page::empty(round_lot, primary));
        number::DONE
    }

    /// Checks 7, 8.
    fn open_line(&mut self, line: u32, letter: u8) -> u8 {
        let is_letter = letter.is_ascii_uppercase() && letter != PROCESSOR;
        let has_line = self.lines.iter().any(|line| line.letter == Some(letter));
        let Some(record) = self.lines.get_mut(line as usize).filter(|_| is_letter) else {
            return number::LINE_OR_LETTER;
        };
        if record.letter.is_some() || M == mistake::SECOND_LINE_REFUSED && has_line {
            return number::LINE_OPEN;
        }
        *record = Line::starting(Some(letter));
        number::DONE
    }

    fn start_day(&mut self) -> u8 {
        if self.day_open {
            return number::DAY_OPEN;
        }
        for page in &mut self.pages {
            page.start_day::<M>();
        }
        for line in &mut self.lines {
            *line = Line::starting(line.letter);
        }
        if M == mistake::START_TICKS {
            self.tick();
        }
        self.day_open = true;
        number::DONE
    }

    fn end_day(&mut self) -> u8 {
        if !self.day_open {
            return number::DAY_CLOSED;
        }
        if M == mistake::END_EMPTIES {
            for page in &mut self.pages {
                page.start_day::<M>();
            }
        }
        if M == mistake::END_ENDS_HALTS {
            for page in &mut self.pages {
                page.halted = false;
                U::update::<M>(page, Touched::Status);
            }
        }
        self.day_open = false;
        number::DONE
    }

    /// Checks 84, 85. A refused setting keeps the old one and starts no tick.
    fn set_allowance(&mut self, blocks: u32, shares: &[u8]) -> u8 {
        let blocks = match M {
            mistake::BLOCKS_CUT => blocks % 256,
            _ => blocks,
        };
        match Allowance::set(blocks, shares) {
            Ok(allowance) => {
                self.allowance = Some(allowance);
                number::DONE
            }
            Err(number) => {
                if M == mistake::REFUSED_SETTING_TICKS {
                    self.tick();
                }
                number
            }
        }
    }

    fn tick(&mut self) -> u8 {
        if let Some(allowance) = &mut self.allowance {
            allowance.tick::<M>();
        }
        number::DONE
    }

    fn take_block(&mut self, line: u32, block: &[u8], answer: &mut [u8]) -> Report {
        self.take(line, block, answer)
    }

    /// Checks 9, 10.
    fn read(&self, symbol: &[u8], publication: &mut [u8]) -> u8 {
        if publication.len() < PUBLICATION_LEN {
            return number::BUFFER_SHORT;
        }
        let listed = as_symbol(symbol).and_then(|symbol| self.directory.find(symbol));
        let Some(page) = listed else {
            return number::SYMBOL_UNKNOWN;
        };
        publication[..PUBLICATION_LEN].copy_from_slice(&self.pages[page].publication());
        number::DONE
    }

    fn snapshot_len(&self, symbol: &[u8]) -> SnapshotSize {
        self.tell_snapshot(symbol)
    }

    fn snapshot(&self, symbol: &[u8], output: &mut [u8]) -> SnapshotSize {
        self.write_snapshot(symbol, output)
    }

    /// Checks 10, 74.
    fn is_protected(&self, symbol: &[u8], side: u8, price: u64) -> Protected {
        let listed = as_symbol(symbol).and_then(|symbol| self.directory.find(symbol));
        let asked = match side {
            b'B' if M == mistake::MARKS_EXCHANGED => Some(Side::Offer),
            b'S' if M == mistake::MARKS_EXCHANGED => Some(Side::Bid),
            b'B' => Some(Side::Bid),
            b'S' => Some(Side::Offer),
            b'b' if M == mistake::SMALL_MARK_TAKEN => Some(Side::Bid),
            _ => None,
        };
        if M == mistake::MARK_BEFORE_SYMBOL && asked.is_none() {
            return Protected::refused(number::SIDE);
        }
        let Some(page) = listed else {
            return Protected {
                looked: if M == mistake::REFUSED_LOOKS { 26 } else { 0 },
                ..Protected::refused(number::SYMBOL_UNKNOWN)
            };
        };
        let Some(side) = asked else {
            return Protected::refused(number::SIDE);
        };
        let (yes, looked) = self.pages[page].search::<M>(side, price);
        Protected {
            number: number::DONE,
            yes,
            looked,
        }
    }

    fn convert_len(&self, block: &[u8]) -> Converted {
        venue::convert_len::<{ venue::mistake::NONE }>(block)
    }

    fn convert(&self, block: &[u8], output: &mut [u8]) -> Converted {
        let lots = |symbol: &Symbol| {
            let page = self.directory.find(symbol)?;
            Some(self.pages[page].round_lot)
        };
        venue::convert::<{ venue::mistake::NONE }>(block, &lots, output)
    }

    /// Checks 10, 74, 82, 83.
    fn try_order(&self, symbol: &[u8], side: u8, lots: u32, steps: &mut [u8]) -> Tried {
        let listed = as_symbol(symbol).and_then(|symbol| self.directory.find(symbol));
        let Some(page) = listed else {
            return Tried::refused(number::SYMBOL_UNKNOWN);
        };
        let side = match side {
            b'B' if M == mistake::ORDER_MARKS_EXCHANGED => Side::Bid,
            b'S' if M == mistake::ORDER_MARKS_EXCHANGED => Side::Offer,
            b'B' => Side::Offer,
            b'S' => Side::Bid,
            _ => return Tried::refused(number::SIDE),
        };
        let too_short = steps.len() < STEPS_LEN;
        if M == mistake::ROOM_BEFORE_LOTS && too_short {
            return Tried::refused(number::STEPS_SHORT);
        }
        let least = if M == mistake::NO_LOTS_TAKEN { 0 } else { 1 };
        let most = match M {
            mistake::MILLION_REFUSED => LOTS_MAX - 1,
            mistake::MORE_LOTS_TAKEN => LOTS_MAX + 1,
            _ => LOTS_MAX,
        };
        if !(least..=most).contains(&lots) {
            let mut refused = Tried::refused(number::LOTS);
            if M == mistake::REFUSED_NOT_FOUND {
                refused.unfilled = lots;
            }
            return refused;
        }
        let page = &self.pages[page];
        // T-10: a halted symbol fills nothing.
        let (played, unfilled) = match page.halted {
            true if M == mistake::HALTED_NONE_WANTED => (Vec::new(), 0),
            true if M != mistake::HALTED_FILLS => (Vec::new(), lots),
            _ => order::play::<M>(&page.sides[side as usize], side, lots),
        };
        let needed = match M {
            mistake::ROOM_BY_NEED => STEP_LEN * played.len(),
            _ => STEPS_LEN,
        };
        if steps.len() < needed {
            return Tried::refused(number::STEPS_SHORT);
        }
        if M == mistake::ORDER_CLEARS_OUTPUT {
            steps.fill(0);
        }
        for (bytes, step) in steps.chunks_exact_mut(STEP_LEN).zip(&played) {
            bytes.copy_from_slice(step);
        }
        Tried {
            number: number::DONE,
            steps: played.len() as u8,
            unfilled,
        }
    }
}

/// A well-formed symbol of eleven bytes, or none.
fn as_symbol(bytes: &[u8]) -> Option<&Symbol> {
    let symbol = bytes.try_into().ok()?;
    well_formed(symbol).then_some(symbol)
}
