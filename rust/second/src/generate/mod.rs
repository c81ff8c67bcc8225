//! Deterministic random lists of calls, and calls of a writer and of a converter.
//!
//! A list is a function of its seed and length. While it is drawn its calls are also made on an
//! engine, only to know which lines are open and which numbers they expect: most blocks are to be
//! taken and most messages accepted, so that the rules behind the checks are reached.

mod blocks;
mod damage;
mod messages;
mod pools;
mod random;
mod venue;
mod writing;

use std::collections::{BTreeMap, VecDeque};

use crate::build::Shown;
use crate::call::{Call, List};
use crate::engine::Engine;
use crate::quote_book::QuoteBook;
use crate::terms::{
    number, ANSWER_LEN, LINES, PUBLICATION_LEN, ROUND_LOTS, SNAPSHOT_MAX, STEPS_LEN, SYMBOLS_MAX,
};
use crate::venue::Converting;
use pools::{Pools, Symbol, Theme};
pub use random::{from_environment, Random};
pub use venue::{damaged_venue, venue, Foretold, LISTED};
pub use writing::writing;

/// The list of so many calls that a seed gives.
pub fn list(seed: u64, calls: usize) -> List {
    let mut random = Random::new(seed);
    let theme = Theme::draw(&mut random);
    let n = theme.draw_n(&mut random);
    let mut generator = Generator::new(random, theme, n);
    generator.draw_ticks(seed);
    let calls = (0..calls).map(|_| generator.next_call()).collect();
    List { n, calls }
}

/// The list of so many calls that a seed gives on a book of n symbols, also more than 64. Behind the
/// calls that set it up three of the symbols are named more often than all others.
pub fn large(seed: u64, n: u32, calls: usize) -> List {
    let mut random = Random::new(seed);
    let theme = Theme::draw(&mut random);
    let mut generator = Generator::new(random, theme, n);
    generator.draw_ticks(seed);
    let calls = (0..calls).map(|_| generator.next_call()).collect();
    List { n, calls }
}

/// The day on a book of n symbols, n 1 to 64, that a seed gives: the calls that set it up, then so
/// many blocks, each with room for its answers.
pub fn day(seed: u64, n: u32, blocks: usize) -> List {
    let mut random = Random::new(seed);
    let theme = Theme::draw(&mut random);
    let mut generator = Generator::new(random, theme, n);
    let mut calls = Vec::new();
    while let Some(call) = generator.setup.pop_front() {
        generator.follow(&call);
        calls.push(call);
    }
    generator.follow(&Call::StartDay);
    for _ in 0..blocks {
        let mut call = generator.take_call();
        if let Call::TakeBlock { answer_len, .. } = &mut call {
            *answer_len = ANSWER_LEN;
        }
        generator.follow(&call);
        calls.push(call);
    }
    List { n, calls }
}

/// A line that is open, as far as the drawn calls have led.
#[derive(Clone, Copy)]
struct OpenLine {
    line: u32,
    letter: u8,
    expected: u32,
}

struct Generator {
    random: Random,
    theme: Theme,
    pools: Pools,
    n: u32,
    /// Calls that set up a made book.
    setup: VecDeque<Call>,
    book: Engine,
    lines: Vec<OpenLine>,
    /// The listed symbols with their round lots and primary letters.
    listed: Vec<(Symbol, u32, u8)>,
    day_open: bool,
    /// The last sides drawn for a letter or a maker, and a symbol.
    quoted: BTreeMap<(Source, Symbol), [Shown; 2]>,
    /// Draws settings and ticks, in a list that has them.
    ticks: Option<Random>,
}

/// A letter, and on D's line a maker.
type Source = (u8, Option<[u8; 4]>);

impl Generator {
    fn new(mut random: Random, theme: Theme, n: u32) -> Generator {
        let pools = Pools::draw(&mut random, theme, n);
        let mut generator = Generator {
            random,
            theme,
            pools,
            n,
            setup: VecDeque::new(),
            book: Engine::large(n),
            lines: Vec::new(),
            listed: Vec::new(),
            day_open: false,
            quoted: BTreeMap::new(),
            ticks: None,
        };
        generator.set_up();
        generator
    }

    /// Whether the list has settings and ticks. They are drawn apart, so that a list without them is what
    /// its seed gave before there were any.
    fn draw_ticks(&mut self, seed: u64) {
        let mut ticks = Random::new(!seed);
        self.ticks = ticks.percent(25).then_some(ticks);
    }

    fn next_call(&mut self) -> Call {
        let call = match self.setup.pop_front() {
            Some(call) => call,
            None => match self.allowance_call() {
                Some(call) => call,
                None => self.draw_call(),
            },
        };
        self.follow(&call);
        call
    }

    /// Symbols, lines and the day of a made book, seldom one of them left out; a symbol more often, which
    /// is then added while others have quotes.
    fn set_up(&mut self) {
        let symbols = match self.theme {
            Theme::Wide => self.pools.symbols.len(),
            _ if self.n > 1 && self.random.percent(15) => self.n as usize - 1,
            _ => self.n as usize,
        };
        for at in 0..symbols {
            self.setup.push_back(Call::AddSymbol {
                symbol: self.pools.symbols[at].to_vec(),
                round_lot: self.random.pick(&[1, 10, 25, 50, 100, 100]),
                primary: self.random.pick(&self.pools.letters),
            });
        }
        for (at, letter) in (0..).zip(self.pools.letters.clone()) {
            let line = match self.theme {
                Theme::Letters => at,
                _ => self.random.below(64) as u32,
            };
            self.setup.push_back(Call::OpenLine { line, letter });
        }
        self.setup.push_back(Call::StartDay);
        if self.random.percent(10) {
            let left_out = self.random.below(self.setup.len());
            self.setup.remove(left_out);
        }
    }

    fn draw_call(&mut self) -> Call {
        if !self.day_open && self.random.percent(20) {
            return Call::StartDay;
        }
        match self.random.weighted(&self.theme.calls()) {
            0 => self.take_call(),
            1 => self.read_call(),
            2 => self.add_call(),
            3 => self.open_call(),
            4 => Call::StartDay,
            5 => Call::EndDay,
            6 => self.make_call(),
            7 => self.protected_call(),
            8 => self.convert_call(),
            9 => Call::SnapshotLen {
                symbol: self.draw_asked_symbol(),
            },
            10 => self.snapshot_call(),
            _ => self.order_call(),
        }
    }

    /// Seldom, in a list that has them: a tick, or a setting so small that blocks are refused.
    fn allowance_call(&mut self) -> Option<Call> {
        let random = self.ticks.as_mut()?;
        if !random.percent(12) {
            return None;
        }
        if random.percent(55) {
            return Some(Call::Tick);
        }
        let blocks = random.usually(85, &[1, 2, 3, 5, 8, 255], &[0, 256, 257, 261, u32::MAX]);
        let wrong_lengths = [0, 1, 63, 65, 128];
        let mut shares = vec![0; random.usually(90, &[LINES], &wrong_lengths)];
        for open in &self.lines {
            if let Some(share) = shares.get_mut(open.line as usize) {
                *share = random.usually(95, &[0, 0, 1, 1, 2], &[3, 128, 255]);
            }
        }
        Some(Call::SetAllowance { blocks, shares })
    }

    fn read_call(&mut self) -> Call {
        let odd_lengths = [0, 1, 16, 95, 97, 128, 192];
        Call::Read {
            symbol: self.draw_symbol_argument(),
            publication_len: self.random.usually(70, &[PUBLICATION_LEN], &odd_lengths),
        }
    }

    /// Mostly a listed symbol.
    fn draw_asked_symbol(&mut self) -> Vec<u8> {
        if self.listed.is_empty() || self.random.percent(20) {
            self.draw_symbol_argument()
        } else {
            self.draw_listed().0.to_vec()
        }
    }

    /// The listed symbols with round lots and primary letters; of more than 64 only three, which come more
    /// often than the others, so that quotes of one symbol meet.
    fn frequent(&self) -> Vec<(Symbol, u32, u8)> {
        let listed = self.listed.len();
        let every = if listed > SYMBOLS_MAX as usize {
            listed.div_ceil(3)
        } else {
            1
        };
        self.listed.iter().step_by(every).copied().collect()
    }

    /// A listed symbol, of which there is one.
    fn draw_listed(&mut self) -> (Symbol, u32, u8) {
        if self.listed.len() > SYMBOLS_MAX as usize && self.random.percent(70) {
            let frequent = self.frequent();
            return self.random.pick(&frequent);
        }
        self.random.pick(&self.listed)
    }

    /// A price of the list, one beside it, or one at the ends of the range.
    fn protected_call(&mut self) -> Call {
        let symbol = self.draw_asked_symbol();
        let price = self.random.pick(&self.pools.prices);
        let near = [price, price - 1, price.saturating_add(1)];
        Call::IsProtected {
            symbol,
            side: self.random.usually(90, b"BS", b"bsAXZ \x00\xff"),
            price: self.random.usually(80, &near, &[0, 0, 1, u64::MAX]),
        }
    }

    /// A venue's block, half of whose quotes name symbols of the list; its length is asked for, or it
    /// is converted.
    fn convert_call(&mut self) -> Call {
        let listed: Vec<Symbol> = self.listed.iter().map(|&(symbol, ..)| symbol).collect();
        let Converting { block, room } = venue::naming(&mut self.random, &listed);
        if self.random.percent(30) {
            return Call::ConvertLen { block };
        }
        Call::Convert {
            block,
            output_len: room,
        }
    }

    /// An output of the length that the snapshot has, one byte less or more, or of another length.
    fn snapshot_call(&mut self) -> Call {
        let symbol = self.draw_asked_symbol();
        let bytes = self.book.snapshot_len(&symbol).bytes;
        let near = [bytes, bytes, bytes.saturating_sub(1), bytes + 1];
        let lengths = [0, 24, 193, 194, 1000, 1705, SNAPSHOT_MAX, 2000];
        Call::Snapshot {
            symbol,
            output_len: self.random.usually(70, &near, &lengths),
        }
    }

    /// Few lots, so that steps are cut, or more than are shown.
    fn order_call(&mut self) -> Call {
        let odd_lengths = [0, 12, 13, 26, 65, 312, 324, 326, 400];
        let symbol = self.draw_asked_symbol();
        let few = 1 + self.random.below(12) as u32;
        let lots = [few, few, 20, 999_999, 1_000_000];
        Call::TryOrder {
            symbol,
            side: self.random.usually(90, b"BS", b"bsAXZ \x00\xff"),
            lots: self.random.usually(85, &lots, &[0, 1_000_001, u32::MAX]),
            steps_len: self.random.usually(80, &[STEPS_LEN], &odd_lengths),
        }
    }

    fn add_call(&mut self) -> Call {
        let wrong = [0, 2, 99, 101, 257, 356, u32::MAX];
        Call::AddSymbol {
            symbol: self.draw_symbol_argument(),
            round_lot: self.random.usually(75, &ROUND_LOTS, &wrong),
            primary: self.random.usually(75, b"ADNPZ", b"S@[anz \x00\xff"),
        }
    }

    fn open_call(&mut self) -> Call {
        let (lines, no_lines) = ([0, 1, 5, 62, 63], [64, 65, 255, 256, 261, u32::MAX]);
        Call::OpenLine {
            line: self.random.usually(75, &lines, &no_lines),
            letter: self.random.usually(75, b"ADNPZ", b"S@[anz \x00\xff"),
        }
    }

    fn make_call(&mut self) -> Call {
        let n = self.n;
        let wrong = [0, n - 1, n + 1, 64, 65, 256 + n, u32::MAX];
        Call::Make {
            n: self.random.usually(50, &[n], &wrong),
        }
    }

    /// A symbol of the list, or one with a damaged byte or another length.
    fn draw_symbol_argument(&mut self) -> Vec<u8> {
        let mut symbol = self.random.pick(&self.pools.symbols).to_vec();
        match self.random.weighted(&[70, 15, 10, 5]) {
            0 => {}
            1 => {
                let at = self.random.below(symbol.len());
                symbol[at] = self.random.pick(b"A~! \x1f\x7f\x80\x00@[az");
            }
            2 => symbol[0] = self.random.pick(b"@[az ~\x00"),
            _ => {
                let len = self.random.pick(&[0, 1, 10, 12, 22]);
                symbol.resize(len, b' ');
            }
        }
        symbol
    }

    /// Makes the call on the generator's own book and notes what it led to.
    fn follow(&mut self, call: &Call) {
        match call {
            Call::Make { n } => {
                if self.book.make(*n) == number::DONE {
                    self.lines.clear();
                    self.listed.clear();
                    self.day_open = false;
                    self.setup.clear();
                    self.set_up();
                }
            }
            Call::AddSymbol {
                symbol,
                round_lot,
                primary,
            } => {
                let number = self.book.add_symbol(symbol, *round_lot, *primary);
                if let (number::DONE, Ok(symbol)) = (number, symbol[..].try_into()) {
                    self.listed.push((symbol, *round_lot, *primary));
                }
            }
            Call::OpenLine { line, letter } => {
                if self.book.open_line(*line, *letter) == number::DONE {
                    self.lines.push(OpenLine {
                        line: *line,
                        letter: *letter,
                        expected: 1,
                    });
                }
            }
            Call::StartDay => {
                if self.book.start_day() == number::DONE {
                    self.lines.iter_mut().for_each(|line| line.expected = 1);
                }
                self.day_open = true;
            }
            Call::EndDay => {
                self.book.end_day();
                self.day_open = false;
            }
            Call::TakeBlock {
                line,
                block,
                answer_len,
            } => {
                let report = self
                    .book
                    .take_block(*line, block, &mut vec![0; *answer_len]);
                let open = self.lines.iter_mut().find(|open| open.line == *line);
                if let Some(open) = open.filter(|_| report.number != number::BUFFER_SHORT) {
                    open.expected = report.expected;
                }
            }
            Call::SetAllowance { blocks, shares } => {
                self.book.set_allowance(*blocks, shares);
            }
            Call::Tick => {
                self.book.tick();
            }
            Call::Read { .. }
            | Call::IsProtected { .. }
            | Call::ConvertLen { .. }
            | Call::Convert { .. }
            | Call::SnapshotLen { .. }
            | Call::Snapshot { .. }
            | Call::TryOrder { .. } => {}
        }
    }
}
