//! A desk that makes hand-written cases short.

use second::build::{self, Odd, Round, Shown};
use second::{Protected, QuoteBook, Report, Tried};

use crate::BOOKS;

/// The lines of the desk, named by their letters.
pub const A: u32 = 3;
pub const N: u32 = 5;
pub const P: u32 = 6;
pub const D: u32 = 7;

/// 10.00 in six implied decimals.
pub const TEN: u64 = 10_000_000;
pub const CENT: u64 = 10_000;

/// No quote on a side.
pub const NOTHING: Shown = (0, 0);

/// A step of an order: letter, price and lots.
pub type Step = (char, u64, u32);

/// A published entry: its name without trailing spaces, price and size.
pub type Entry = (String, u64, u32);

pub fn entry(name: &str, price: u64, size: u32) -> Entry {
    (name.to_string(), price, size)
}

pub fn none() -> Entry {
    entry("", 0, 0)
}

/// A book of four symbols with ZT (round lot 100, primary letter N) and YY (round lot 10, primary
/// letter P), lines for A, N, P and D, and an open day.
pub struct Desk {
    pub book: Box<dyn QuoteBook>,
}

/// Runs a case on each of the books.
pub fn each_desk(case: impl Fn(&mut Desk)) {
    for (name, fresh) in BOOKS {
        println!("{name}");
        let mut book = fresh(4);
        assert_eq!(book.add_symbol(&build::symbol("ZT"), 100, b'N'), 0);
        assert_eq!(book.add_symbol(&build::symbol("YY"), 10, b'P'), 0);
        for (line, letter) in [(A, b'A'), (N, b'N'), (P, b'P'), (D, b'D')] {
            assert_eq!(book.open_line(line, letter), 0);
        }
        assert_eq!(book.start_day(), 0);
        case(&mut Desk { book });
    }
}

/// Index, code, flags and 0 of one message.
pub type Answer = [u8; 4];

impl Desk {
    /// Takes any bytes as a block.
    pub fn take(&mut self, line: u32, block: &[u8]) -> (Report, Vec<Answer>) {
        let mut answer = [0xEE; 180];
        let report = self.book.take_block(line, block, &mut answer);
        let count = (report.accepted + report.partly + report.rejected) as usize;
        assert!(answer[4 * count..].iter().all(|&byte| byte == 0xEE));
        let answers = answer[..4 * count].chunks_exact(4);
        let answers = answers.map(|answer| answer.try_into().unwrap());
        (report, answers.collect())
    }

    /// The report of an empty block, which changes nothing and shows the line's record.
    pub fn record(&mut self, line: u32) -> (u32, u64) {
        let (report, _) = self.take(line, &[]);
        (report.expected, report.count)
    }

    /// Sends messages in one block under the number that the line expects.
    pub fn send(&mut self, line: u32, messages: &[Vec<u8>]) -> (Report, Vec<Answer>) {
        let (expected, _) = self.record(line);
        self.take(line, &build::block(expected, messages))
    }

    /// Sends one message and gives its code and flags.
    pub fn message(&mut self, line: u32, message: Vec<u8>) -> (u8, u8) {
        let (report, answers) = self.send(line, &[message]);
        assert_eq!(report.number, 0);
        (answers[0][1], answers[0][2])
    }

    /// Sends one message and gives its code.
    pub fn code(&mut self, line: u32, message: Vec<u8>) -> u8 {
        self.message(line, message).0
    }

    /// Opens a line for a letter that the desk has none of, and sends a regular quote of ZT on it.
    pub fn quote_by(&mut self, line: u32, letter: u8, bid: Shown, offer: Shown) {
        assert_eq!(self.book.open_line(line, letter), 0);
        let round = Round::regular(letter, 7, "ZT", bid, offer);
        assert_eq!(self.code(line, quote(&round)), 0);
    }

    pub fn publication(&self, symbol: &str) -> Vec<u8> {
        let mut publication = vec![0xEE; 100];
        assert_eq!(self.book.read(&build::symbol(symbol), &mut publication), 0);
        assert_eq!(publication[96..], [0xEE; 4]);
        publication.truncate(96);
        publication
    }

    /// What a query about ZT answers: yes or no, and the letters looked at.
    pub fn protected(&self, side: u8, price: u64) -> (bool, u8) {
        let symbol = build::symbol("ZT");
        let Protected {
            number,
            yes,
            looked,
        } = self.book.is_protected(&symbol, side, price);
        assert_eq!(number, 0);
        (yes, looked)
    }

    /// What an order of ZT gives: letter, price and lots of each step, and the lots not found.
    pub fn order(&self, side: u8, lots: u32) -> (Vec<Step>, u32) {
        let symbol = build::symbol("ZT");
        let mut output = [0xEE; 340];
        let Tried {
            number,
            steps,
            unfilled,
        } = self.book.try_order(&symbol, side, lots, &mut output);
        assert_eq!(number, 0);
        let (filled, behind) = output.split_at(13 * usize::from(steps));
        assert!(behind.iter().all(|&byte| byte == 0xEE));
        let steps = filled.chunks_exact(13).map(|step| {
            let price = u64::from_be_bytes(step[1..9].try_into().unwrap());
            let lots = u32::from_be_bytes(step[9..].try_into().unwrap());
            (char::from(step[0]), price, lots)
        });
        (steps.collect(), unfilled)
    }

    /// The six entries of a symbol.
    pub fn entries(&self, symbol: &str) -> Vec<Entry> {
        let publication = self.publication(symbol);
        let entries = publication.chunks_exact(16).map(|bytes| {
            let name = String::from_utf8_lossy(&bytes[..4]);
            let price = u64::from_be_bytes(bytes[4..12].try_into().unwrap());
            let size = u32::from_be_bytes(bytes[12..].try_into().unwrap());
            entry(name.trim_end(), price, size)
        });
        entries.collect()
    }

    pub fn national_bid(&self) -> Entry {
        self.entries("ZT")[0].clone()
    }

    pub fn national_offer(&self) -> Entry {
        self.entries("ZT")[1].clone()
    }

    pub fn finra_bid(&self) -> Entry {
        self.entries("ZT")[2].clone()
    }

    pub fn odd_bid(&self) -> Entry {
        self.entries("ZT")[4].clone()
    }

    pub fn odd_offer(&self) -> Entry {
        self.entries("ZT")[5].clone()
    }
}

/// The letter of one of the desk's lines.
fn letter(line: u32) -> u8 {
    match line {
        A => b'A',
        N => b'N',
        P => b'P',
        _ => b'D',
    }
}

/// A round part for ZT at time 7 under condition R.
pub fn round(line: u32, bid: Shown, offer: Shown) -> Round {
    Round::regular(letter(line), 7, "ZT", bid, offer)
}

/// Q K without an odd part.
pub fn quote(round: &Round) -> Vec<u8> {
    build::round_lot(round, &Odd::IDLE)
}

/// Q U of a maker for ZT at time 7 under condition R.
pub fn maker(name: &str, bid: Shown, offer: Shown) -> Vec<u8> {
    build::maker_quote(&round(D, bid, offer), build::maker(name))
}

pub fn odd(clear: u8, bids: &[Shown], offers: &[Shown]) -> Odd {
    Odd {
        clear,
        bids: bids.to_vec(),
        offers: offers.to_vec(),
    }
}

/// Q M for ZT at time 7.
pub fn odd_lot(line: u32, odd: &Odd) -> Vec<u8> {
    build::odd_lot(letter(line), 7, build::symbol("ZT"), odd)
}

/// Q T for ZT at time 7.
pub fn finra_odd_lot(line: u32, odd: &Odd) -> Vec<u8> {
    build::finra_odd_lot(letter(line), 7, build::symbol("ZT"), odd)
}

/// T S of a symbol at time 7.
pub fn status(line: u32, symbol: &str, status: u8) -> Vec<u8> {
    build::trading_status(letter(line), 7, build::symbol(symbol), status)
}

/// A message with some bytes replaced.
pub fn with(mut message: Vec<u8>, at: usize, bytes: &[u8]) -> Vec<u8> {
    message[at..at + bytes.len()].copy_from_slice(bytes);
    message
}

/// A message of the header alone, on one of the desk's lines.
pub fn control(message_type: u8, line: u32) -> Vec<u8> {
    build::header(b'C', message_type, letter(line), 7)
}

/// Four odd bids from 10.01 on, a cent apart, of one share each.
pub fn four_bids() -> Vec<Shown> {
    (1..=4).map(|cents| (TEN + cents * CENT, 1)).collect()
}
