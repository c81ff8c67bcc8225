//! The library's calls on guarded memory. After every call this sees to what the second
//! implementation cannot show: no byte around a buffer changed, no byte of a block or symbol did, a
//! refused call changed no byte of the book, and any other only those that it may.

use std::ops::{BitXorAssign, Range};

use quotebook::{lent, Number};
use second::{build, Converted, Protected, QuoteBook, Report, SnapshotSize, Tried};

use super::layout::{
    self, byte, hint, in_page, line, moved, page, ALLOWANCE, CHARGES, CONTENTS, COUNT, DAY, LINES,
    N, OPENING_LEN,
};

/// Answered instead of the call's number if memory was written that may not be. No call of a book
/// has these numbers, so that the comparison fails at this call.
pub mod broken {
    pub const AROUND: u8 = 201;
    pub const ARGUMENT: u8 = 202;
    pub const REFUSED: u8 = 203;
    pub const BEYOND: u8 = 204;

    /// What each of these numbers says.
    pub const TABLE: [(u8, &str); 4] = [
        (AROUND, "a byte around the book was written"),
        (
            ARGUMENT,
            "a byte of or around a block or symbol was written",
        ),
        (REFUSED, "a refused call wrote into the book"),
        (
            BEYOND,
            "a call wrote a byte of the book that it may not change",
        ),
    ];
}

const GUARD: usize = 64;

/// Bytes, or other numbers, with guards around them.
pub struct Fenced<T = u8>(Vec<T>);

impl<T: Copy + PartialEq + From<u8> + BitXorAssign> Fenced<T> {
    fn fence() -> [T; GUARD] {
        [T::from(0xC3); GUARD]
    }

    pub fn new(bytes: &[T]) -> Fenced<T> {
        Fenced([&Self::fence(), bytes, &Self::fence()].concat())
    }

    pub fn bytes(&self) -> &[T] {
        &self.0[GUARD..self.0.len() - GUARD]
    }

    pub fn bytes_mut(&mut self) -> &mut [T] {
        let end = self.0.len() - GUARD;
        &mut self.0[GUARD..end]
    }

    /// Whether the guards are as they were.
    pub fn stands(&self) -> bool {
        self.0.starts_with(&Self::fence()) && self.0.ends_with(&Self::fence())
    }

    /// Whether the guards and the bytes are as they were.
    pub fn keeps(&self, bytes: &[T]) -> bool {
        self.stands() && self.bytes() == bytes
    }

    /// Alters one of the bytes, or of the guard behind them, behind the library's back.
    pub fn plant(&mut self, at: usize) {
        self.0[GUARD + at] ^= T::from(1);
    }
}

/// A book in guarded memory.
pub struct Guarded {
    memory: Fenced,
    /// The book as the last call left it.
    before: Vec<u8>,
}

impl Guarded {
    /// A fresh book, made in memory of a pattern.
    pub fn fresh(n: u32) -> Guarded {
        let len = lent::book_len(n).expect("n is 1 to 64");
        let pattern: Vec<u8> = (0..len).map(|at| 0x5A ^ at as u8).collect();
        let mut book = Guarded::over(&pattern);
        assert_eq!(book.make(n), 0);
        book
    }

    /// A copy of any memory.
    pub fn over(memory: &[u8]) -> Guarded {
        Guarded {
            memory: Fenced::new(memory),
            before: memory.to_vec(),
        }
    }

    pub fn bytes(&self) -> &[u8] {
        self.memory.bytes()
    }

    /// Writes a byte behind the library's back: of the book, or of the guard behind it.
    pub fn plant(&mut self, at: usize) {
        self.memory.plant(at);
    }

    /// The call's number, or what it broke. `allowed` are the bytes that the call may change if it
    /// is not refused.
    fn settle(&mut self, number: Number, allowed: &[Range<usize>], argument_kept: bool) -> u8 {
        if !number.is_refusal() {
            for range in allowed {
                self.before[range.clone()].copy_from_slice(&self.memory.bytes()[range.clone()]);
            }
        }
        let kept = self.before == self.memory.bytes();
        if !kept {
            self.before = self.memory.bytes().to_vec();
        }
        match number {
            _ if !self.memory.stands() => broken::AROUND,
            _ if !argument_kept => broken::ARGUMENT,
            _ if !kept && number.is_refusal() => broken::REFUSED,
            _ if !kept => broken::BEYOND,
            _ => u8::from(number),
        }
    }

    /// The number of a call that only reads the book, or what it broke.
    fn settle_read(&self, number: Number, argument_kept: bool) -> u8 {
        if !argument_kept {
            return broken::ARGUMENT;
        }
        if !self.memory.keeps(&self.before) {
            return broken::BEYOND;
        }
        u8::from(number)
    }

    /// What a taken block may change: its line's numbers and charge, and the contents of each page that an
    /// accepted or partly accepted message names; with an accepted FINRA Close or Open, of every page.
    fn may_change(&self, line: u32, block: &[u8], answer: &[u8]) -> Vec<Range<usize>> {
        let mut allowed = vec![moved(line as usize), byte(CHARGES + line as usize)];
        let (_, messages) = build::split(block).expect("a taken block has its messages");
        for (message, answer) in messages.iter().zip(answer.chunks_exact(4)) {
            let (kind, code) = (&message[..2], answer[1]);
            let in_part = kind == b"QK" && code >= 60;
            if code != 0 && !in_part {
                continue;
            }
            match kind {
                b"QK" | b"QM" | b"QT" | b"QU" | b"TS" => {
                    let named = layout::listed_page(self.bytes(), &message[20..31]);
                    allowed.extend(named.map(|named| in_page(named, CONTENTS)));
                }
                b"CC" | b"CO" => {
                    let pages = 0..usize::from(self.bytes()[N]);
                    allowed.extend(pages.map(|page| in_page(page, CONTENTS)));
                }
                _ => {}
            }
        }
        allowed
    }
}

impl QuoteBook for Guarded {
    fn make(&mut self, n: u32) -> u8 {
        let number = lent::make(self.memory.bytes_mut(), n);
        let all = 0..self.before.len();
        self.settle(number, &[all], true)
    }

    fn add_symbol(&mut self, symbol: &[u8], round_lot: u32, primary: u8) -> u8 {
        let argument = Fenced::new(symbol);
        let book = self.memory.bytes_mut();
        let number = lent::add_symbol(book, argument.bytes(), round_lot, primary);
        let kept = argument.keeps(symbol);
        if number.is_refusal() {
            return self.settle(number, &[], kept);
        }
        let added = page(usize::from(self.before[COUNT]));
        self.settle(number, &[byte(COUNT), added, byte(hint(symbol))], kept)
    }

    fn open_line(&mut self, line_number: u32, letter: u8) -> u8 {
        let number = lent::open_line(self.memory.bytes_mut(), line_number, letter);
        self.settle(number, &[line(line_number as usize)], true)
    }

    fn start_day(&mut self) -> u8 {
        let number = lent::start_day(self.memory.bytes_mut());
        if number.is_refusal() {
            return self.settle(number, &[], true);
        }
        let pages = 0..usize::from(self.before[N]);
        let mut allowed = vec![byte(DAY)];
        allowed.extend((0..LINES).map(moved));
        allowed.extend(pages.map(|page| in_page(page, CONTENTS)));
        self.settle(number, &allowed, true)
    }

    fn end_day(&mut self) -> u8 {
        let number = lent::end_day(self.memory.bytes_mut());
        self.settle(number, &[byte(DAY)], true)
    }

    fn set_allowance(&mut self, blocks: u32, shares: &[u8]) -> u8 {
        let argument = Fenced::new(shares);
        let number = lent::set_allowance(self.memory.bytes_mut(), blocks, argument.bytes());
        let kept = argument.keeps(shares);
        let allowance = ALLOWANCE..OPENING_LEN;
        self.settle(number, &[allowance], kept)
    }

    fn tick(&mut self) -> u8 {
        let number = lent::tick(self.memory.bytes_mut());
        let charges = CHARGES..OPENING_LEN;
        self.settle(number, &[charges], true)
    }

    fn take_block(&mut self, line: u32, block: &[u8], answer: &mut [u8]) -> Report {
        let argument = Fenced::new(block);
        let report = lent::take_block(self.memory.bytes_mut(), line, argument.bytes(), answer);
        let allowed = if report.number.is_refusal() {
            Vec::new()
        } else {
            self.may_change(line, block, answer)
        };
        Report {
            number: self.settle(report.number, &allowed, argument.keeps(block)),
            gap: report.gap,
            expected: report.expected,
            count: report.count,
            accepted: report.accepted,
            partly: report.partly,
            rejected: report.rejected,
        }
    }

    fn read(&self, symbol: &[u8], publication: &mut [u8]) -> u8 {
        let argument = Fenced::new(symbol);
        let number = lent::read(self.memory.bytes(), argument.bytes(), publication);
        self.settle_read(number, argument.keeps(symbol))
    }

    fn snapshot_len(&self, symbol: &[u8]) -> SnapshotSize {
        let argument = Fenced::new(symbol);
        let told = lent::snapshot_len(self.memory.bytes(), argument.bytes());
        SnapshotSize {
            number: self.settle_read(told.number, argument.keeps(symbol)),
            blocks: told.blocks,
            bytes: told.bytes,
        }
    }

    fn snapshot(&self, symbol: &[u8], output: &mut [u8]) -> SnapshotSize {
        let argument = Fenced::new(symbol);
        let told = lent::snapshot(self.memory.bytes(), argument.bytes(), output);
        SnapshotSize {
            number: self.settle_read(told.number, argument.keeps(symbol)),
            blocks: told.blocks,
            bytes: told.bytes,
        }
    }

    fn is_protected(&self, symbol: &[u8], side: u8, price: u64) -> Protected {
        let argument = Fenced::new(symbol);
        let told = lent::is_protected(self.memory.bytes(), argument.bytes(), side, price);
        Protected {
            number: self.settle_read(told.number, argument.keeps(symbol)),
            yes: told.yes,
            looked: told.looked,
        }
    }

    fn convert_len(&self, block: &[u8]) -> Converted {
        let argument = Fenced::new(block);
        let told = lent::convert_len(self.memory.bytes(), argument.bytes());
        Converted {
            number: self.settle_read(told.number, argument.keeps(block)),
            len: told.len,
        }
    }

    fn convert(&self, block: &[u8], output: &mut [u8]) -> Converted {
        let argument = Fenced::new(block);
        let told = lent::convert(self.memory.bytes(), argument.bytes(), output);
        Converted {
            number: self.settle_read(told.number, argument.keeps(block)),
            len: told.len,
        }
    }

    fn try_order(&self, symbol: &[u8], side: u8, lots: u32, steps: &mut [u8]) -> Tried {
        let argument = Fenced::new(symbol);
        let told = lent::try_order(self.memory.bytes(), argument.bytes(), side, lots, steps);
        Tried {
            number: self.settle_read(told.number, argument.keeps(symbol)),
            steps: told.steps as u8,
            unfilled: told.unfilled,
        }
    }
}
