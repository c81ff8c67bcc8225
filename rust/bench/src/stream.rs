//! Streams of blocks, prepared beforehand.

use std::ops::Range;

use crate::market::{Market, LETTERS};
use second::build;
use second::terms::{BLOCK_MAX, FINRA, MESSAGES_MAX};
use second::QuoteBook;

/// The messages of a stream.
#[derive(Clone, Copy, PartialEq, Eq)]
pub enum Kind {
    /// Round lot quotes, odd lots, makers' quotes, and a few that are refused.
    Mixed,
    /// Round lot and makers' quotes of 60 bytes.
    Quotes,
    /// Odd-lot messages of 36 bytes, a clear mark without items.
    Clears,
    /// Messages of 20 bytes, all refused with 42.
    Cut,
}

/// How many messages a block carries.
#[derive(Clone, Copy, PartialEq, Eq)]
pub enum Size {
    /// As many as fit in 1,000 bytes.
    Full,
    /// So many.
    Fixed(usize),
    /// 1 to 45, each as likely, as far as they fit.
    Drawn,
}

/// One block and the line that it comes on.
struct Placed {
    line: u32,
    bytes: Range<usize>,
}

/// The blocks of a day, one behind the other.
#[derive(Default)]
struct Blocks {
    bytes: Vec<u8>,
    placed: Vec<Placed>,
    messages: usize,
}

/// A day on a book of n symbols: what sets it up, what warms it and what is measured.
pub struct Stream {
    /// The symbols with their round lots.
    pub symbols: Vec<([u8; 11], u32)>,
    warming: Blocks,
    measured: Blocks,
}

/// The seed of every stream.
const SEED: u64 = 20_260_401;

impl Stream {
    /// A stream of about so many messages for n symbols. Before them every exchange quotes every
    /// symbol once and its makers sixteen times, and 4,000 mixed messages leave odd lots standing.
    pub fn new(n: usize, kind: Kind, size: Size, messages: usize) -> Stream {
        let mut market = Market::new(SEED, n);
        let mut expected = [1; LETTERS.len()];
        let mut warming = Blocks::default();
        for stock in 0..n {
            for (line, &letter) in LETTERS.iter().enumerate() {
                for _ in 0..if letter == FINRA { 16 } else { 1 } {
                    let quote = market.quote_of(line, stock);
                    warming.add(line, &mut expected, &[quote]);
                }
            }
        }
        warming.fill(&mut market, &mut expected, Kind::Mixed, Size::Full, 4_000);
        let mut measured = Blocks::default();
        measured.fill(&mut market, &mut expected, kind, size, messages);
        let stocks = market.stocks.iter();
        Stream {
            symbols: stocks
                .map(|stock| (stock.symbol, stock.round_lot))
                .collect(),
            warming,
            measured,
        }
    }

    /// The messages that are measured.
    pub fn messages(&self) -> usize {
        self.measured.messages
    }

    /// How many blocks are measured.
    pub fn blocks(&self) -> usize {
        self.measured.placed.len()
    }

    /// The mean of messages a block.
    pub fn messages_a_block(&self) -> f64 {
        self.messages() as f64 / self.blocks() as f64
    }

    /// The mean length of a block.
    pub fn bytes_a_block(&self) -> f64 {
        self.measured.bytes.len() as f64 / self.blocks() as f64
    }

    /// Lists the symbols and opens the lines in a fresh book.
    pub fn set_up(&self, book: &mut impl QuoteBook) {
        for (symbol, round_lot) in &self.symbols {
            let added = book.add_symbol(symbol, *round_lot, b'N');
            assert_eq!(added, 0, "a symbol is added");
        }
        for (line, &letter) in LETTERS.iter().enumerate() {
            assert_eq!(book.open_line(line as u32, letter), 0, "a line is opened");
        }
    }

    /// The blocks that warm a book, with their lines.
    pub fn warming(&self) -> impl Iterator<Item = (u32, &[u8])> {
        self.warming.iter()
    }

    /// The blocks that are measured, with their lines.
    #[inline]
    pub fn measured(&self) -> impl Iterator<Item = (u32, &[u8])> {
        self.measured.iter()
    }
}

impl Blocks {
    #[inline]
    fn iter(&self) -> impl Iterator<Item = (u32, &[u8])> {
        let blocks = self.placed.iter();
        blocks.map(|placed| (placed.line, &self.bytes[placed.bytes.clone()]))
    }

    fn add(&mut self, line: usize, expected: &mut [u32], messages: &[Vec<u8>]) {
        let block = build::block(expected[line], messages);
        assert!(block.len() <= BLOCK_MAX, "a block's messages fit");
        expected[line] += messages.len() as u32;
        let from = self.bytes.len();
        self.bytes.extend(block);
        self.placed.push(Placed {
            line: line as u32,
            bytes: from..self.bytes.len(),
        });
        self.messages += messages.len();
    }

    /// Adds blocks until so many messages stand. Each line keeps the message that did not fit for
    /// its next block.
    fn fill(
        &mut self,
        market: &mut Market,
        expected: &mut [u32],
        kind: Kind,
        size: Size,
        messages: usize,
    ) {
        let mut left_over = [const { None }; LETTERS.len()];
        let until = self.messages + messages;
        while self.messages < until {
            let line = market.draw_line();
            if kind == Kind::Clears && LETTERS[line] == FINRA {
                continue;
            }
            let most = match size {
                Size::Full => MESSAGES_MAX,
                Size::Fixed(count) => count,
                Size::Drawn => market.draw_count(MESSAGES_MAX),
            };
            let mut messages = Vec::new();
            let mut len = 10;
            while messages.len() < most {
                let message = match left_over[line].take() {
                    Some(message) => message,
                    None => kind.draw(market, line),
                };
                len += 2 + message.len();
                if len > BLOCK_MAX {
                    left_over[line] = Some(message);
                    break;
                }
                messages.push(message);
            }
            self.add(line, expected, &messages);
        }
    }
}

impl Kind {
    fn draw(self, market: &mut Market, line: usize) -> Vec<u8> {
        match self {
            Kind::Mixed => market.message(line),
            Kind::Quotes => market.quote(line),
            Kind::Clears => market.clear(line),
            Kind::Cut => market.cut(line),
        }
    }
}
