//! The sample recording: a day of three symbols on four exchanges and FINRA, with a quiet hour, a burst,
//! a gap, a halt, a FINRA Close, a closed venue and the accident. The prices are invented.
//!
//! [`router_log`] is the log of a router that had the accident's mistake.

use quotebook::log::{Call, Head, Records};
use second::build::{self, Odd, Round, Shown};
use second::engine::{mistake, Book, Recompute};
use second::generate::Random;
use second::QuoteBook;

use crate::entries::decoded;
use crate::library::carry_out;
use crate::message::{parts, symbol_of};
use crate::play::{Entries, NO_ENTRIES};
use crate::router::{entry_cells, COLUMNS};
use crate::row;
use crate::table::Cell;

/// A line and its letter.
#[derive(Clone, Copy)]
struct Line(u8, u8);

const NYSE: Line = Line(5, b'N');
const ARCA: Line = Line(7, b'P');
const NASDAQ: Line = Line(11, b'Q');
const CBOE: Line = Line(20, b'Z');
const FINRA: Line = Line(30, b'D');
const EXCHANGES: [Line; 4] = [NYSE, ARCA, NASDAQ, CBOE];

const SYMBOLS: [(&str, u32, u64); 3] = [
    ("ZT", 100, 10_000_000),
    ("IBM", 100, 227_400_000),
    ("NVR", 10, 7_920_000_000),
];

const CENT: u64 = 10_000;
const SECOND: u64 = 1_000_000_000;
const MINUTE: u64 = 60 * SECOND;
const HOUR: u64 = 60 * MINUTE;
const OPEN: u64 = 9 * HOUR + 30 * MINUTE;

/// The step of a symbol's prices in cents: about a millionth of its price.
fn step(place: usize) -> u64 {
    SYMBOLS[place].2 / 10_000_000
}

/// The bytes of the recording, the same at every call.
pub fn recording() -> Vec<u8> {
    let mut day = Day::new();
    day.morning();
    day.quiet(60 * MINUTE, 20 * SECOND);
    day.burst();
    day.bad_line();
    day.quiet(18 * MINUTE, 30 * SECOND);
    day.halt();
    day.quiet(8 * MINUTE, 30 * SECOND);
    day.finra_close();
    day.quiet(12 * MINUTE, 30 * SECOND);
    day.closed_venue();
    day.accident();
    day.quiet(5 * MINUTE, 30 * SECOND);
    day.call(&Call::EndDay);
    day.log
}

/// The day as it is written.
struct Day {
    log: Vec<u8>,
    time: u64,
    next: [u32; 64],
    /// Each symbol's middle price in cents.
    middle: [u64; 3],
    random: Random,
}

impl Day {
    fn new() -> Day {
        let mut day = Day {
            log: Head::new(3).to_bytes().to_vec(),
            time: OPEN - 10 * MINUTE,
            next: [1; 64],
            middle: SYMBOLS.map(|(_, _, price)| price / CENT),
            random: Random::new(14),
        };
        for (symbol, round_lot, _) in SYMBOLS {
            day.call(&Call::AddSymbol {
                symbol: &build::symbol(symbol),
                round_lot,
                primary: NYSE.1,
            });
        }
        for Line(line, letter) in EXCHANGES.into_iter().chain([FINRA]) {
            day.call(&Call::OpenLine {
                line: line.into(),
                letter,
            });
        }
        day.time = OPEN - MINUTE;
        day.call(&Call::StartDay);
        day.time = OPEN;
        day
    }

    fn call(&mut self, call: &Call) {
        call.write(self.time, &mut self.log);
    }

    /// A block as it arrives, a little after it was sent.
    fn block(&mut self, line: Line, block: &[u8]) {
        self.time += 40_000 + self.random.below(20_000) as u64;
        self.call(&Call::TakeBlock {
            line: line.0.into(),
            block,
            room: 180,
        });
    }

    /// A block of some messages under the number that its line expects.
    fn send(&mut self, line: Line, messages: &[Vec<u8>]) {
        let next = &mut self.next[usize::from(line.0)];
        let block = build::block(*next, messages);
        if !matches!(&messages[0][..2], b"CI" | b"CT" | b"C5") {
            *next += messages.len() as u32;
        }
        self.block(line, &block);
    }

    fn round(&self, line: Line, symbol: &str, condition: u8, bid: Shown, offer: Shown) -> Round {
        Round {
            letter: line.1,
            time: self.time,
            symbol: build::symbol(symbol),
            condition,
            bid,
            offer,
        }
    }

    fn quote(&mut self, line: Line, symbol: &str, condition: u8, bid: Shown, offer: Shown) {
        let round = self.round(line, symbol, condition, bid, offer);
        self.send(line, &[build::round_lot(&round, &Odd::IDLE)]);
    }

    fn odd_lot(&mut self, line: Line, symbol: &str, clear: u8, bids: &[Shown], offers: &[Shown]) {
        let odd = Odd {
            clear,
            bids: bids.to_vec(),
            offers: offers.to_vec(),
        };
        let message = build::odd_lot(line.1, self.time, build::symbol(symbol), &odd);
        self.send(line, &[message]);
    }

    fn status(&mut self, line: Line, symbol: &str, status: u8) {
        let symbol = build::symbol(symbol);
        let message = build::trading_status(line.1, self.time, symbol, status);
        self.send(line, &[message]);
    }

    fn control(&mut self, line: Line, message_type: u8) {
        let message = build::header(b'C', message_type, line.1, self.time);
        self.send(line, &[message]);
    }

    fn maker(&mut self, symbol: &str, maker: &str, bid: Shown, offer: Shown) {
        let round = self.round(FINRA, symbol, b'R', bid, offer);
        self.send(FINRA, &[build::maker_quote(&round, build::maker(maker))]);
    }

    /// A quote near a symbol's middle.
    fn drawn(&mut self, line: Line, place: usize) -> Vec<u8> {
        let (symbol, _, _) = SYMBOLS[place];
        let step = step(place);
        // The middle stays so near to the first price that no exchange's quote crosses another's.
        let first = SYMBOLS[place].2 / CENT;
        if self.random.percent(40) {
            let up = self.random.percent(50);
            let middle = &mut self.middle[place];
            *middle = match up {
                true => (*middle + step).min(first + 2 * step),
                false => (*middle - step).max(first - 2 * step),
            };
        }
        let mut away = || (3 + self.random.below(3) as u64) * step;
        let (below, above) = (away(), away());
        let mut size = || 1 + self.random.below(9) as u32;
        let bid = ((self.middle[place] - below) * CENT, size());
        let offer = ((self.middle[place] + above) * CENT, size());
        let round = self.round(line, symbol, b'R', bid, offer);
        build::round_lot(&round, &Odd::IDLE)
    }

    /// Lines come up, every exchange shows its first quotes, makers follow.
    fn morning(&mut self) {
        self.control(NYSE, b'T');
        let test = build::test(NASDAQ.1, self.time);
        self.send(NASDAQ, &[test]);
        self.control(FINRA, b'O');
        for line in EXCHANGES {
            let first: Vec<Vec<u8>> = (0..3).map(|place| self.drawn(line, place)).collect();
            self.send(line, &first);
        }
        self.maker("IBM", "ETMM", (225_000_000, 8), (230_000_000, 6));
        self.maker("IBM", "KNLI", (224_900_000, 1), (230_100_000, 4));
        self.maker("ZT", "ETMM", (9_850_000, 20), (10_150_000, 20));
    }

    /// Quotes far apart.
    fn quiet(&mut self, long: u64, between: u64) {
        let end = self.time + long;
        while self.time < end {
            self.time += between / 2 + self.random.below(between as usize) as u64;
            let line = self.random.pick(&EXCHANGES);
            let place = self.random.weighted(&[5, 3, 1]);
            let message = self.drawn(line, place);
            self.send(line, &[message]);
        }
    }

    /// Two seconds of full blocks of one line.
    fn burst(&mut self) {
        self.time = OPEN + HOUR;
        for _ in 0..60 {
            let count = 1 + self.random.below(8);
            let messages: Vec<Vec<u8>> = (0..count).map(|_| self.drawn(NASDAQ, 1)).collect();
            self.send(NASDAQ, &messages);
            self.time += 33_000_000;
        }
    }

    /// Three messages of a line are missing, a block comes twice, one is damaged on its way, and some
    /// messages are wrong.
    fn bad_line(&mut self) {
        self.time = 10 * HOUR + 40 * MINUTE;
        self.next[usize::from(ARCA.0)] += 3;
        self.quote(ARCA, "IBM", b'R', (227_410_000, 5), (227_440_000, 1));
        let again = build::block(1, &[build::header(b'Q', b'K', ARCA.1, self.time)]);
        self.block(ARCA, &again);
        let mut damaged = build::block(self.next[usize::from(NASDAQ.0)], &[self.drawn(NASDAQ, 0)]);
        damaged[30] ^= 1;
        self.block(NASDAQ, &damaged);
        self.quote(NASDAQ, "TSLA", b'R', (251_020_000, 4), (251_090_000, 2));
        self.quote(NASDAQ, "ZT", b'X', (9_990_000, 1), (10_010_000, 1));
        self.quote(CBOE, "IBM", b'R', (0, 12), (227_450_000, 4));
    }

    /// The primary exchange halts IBM for ten minutes; quotes go on being stored. Another exchange may
    /// not end it.
    fn halt(&mut self) {
        self.time = 11 * HOUR;
        self.status(NYSE, "IBM", b'H');
        self.time += 4 * MINUTE;
        self.quote(ARCA, "IBM", b'R', (227_100_000, 6), (227_700_000, 6));
        self.status(CBOE, "IBM", b'T');
        self.time = 11 * HOUR + 10 * MINUTE;
        self.status(NYSE, "IBM", b'T');
    }

    /// A maker leads. FINRA closes for ten minutes: its makers' quotes do not count.
    fn finra_close(&mut self) {
        self.time = 11 * HOUR + 20 * MINUTE;
        self.maker("IBM", "KNLI", (227_390_000, 5), (227_410_000, 5));
        self.time = 11 * HOUR + 30 * MINUTE;
        self.control(FINRA, b'C');
        self.time += 10 * MINUTE;
        self.control(FINRA, b'O');
        self.time += 5 * MINUTE;
        self.maker("IBM", "KNLI", (224_900_000, 1), (230_100_000, 4));
    }

    /// A venue closes its quote: its odd lots stand, and do not rank any more.
    fn closed_venue(&mut self) {
        self.time = 12 * HOUR;
        self.quote(NYSE, "ZT", b'R', (9_900_000, 9), (10_100_000, 4));
        self.quote(ARCA, "ZT", b'R', (9_890_000, 2), (10_100_000, 4));
        self.quote(NASDAQ, "ZT", b'R', (9_880_000, 7), (10_120_000, 3));
        self.quote(CBOE, "ZT", b'R', (9_870_000, 1), (10_130_000, 1));
        self.maker("ZT", "ETMM", (9_850_000, 20), (10_150_000, 20));
        self.odd_lot(CBOE, "ZT", b' ', &[(9_950_000, 30)], &[(10_040_000, 25)]);
        self.time += 10 * MINUTE;
        self.quote(CBOE, "ZT", b'C', (9_870_000, 1), (10_130_000, 1));
    }

    /// N has four odd bids and one odd offer, at 10.05. It sends its quote once more, with an odd part
    /// that clears the offers and bids a fifth price. The odd part is refused for that price: its clear
    /// may not stay.
    fn accident(&mut self) {
        self.time = 13 * HOUR;
        let bids = [9_910_000, 9_920_000, 9_930_000, 9_940_000].map(|price| (price, 10));
        self.odd_lot(NYSE, "ZT", b' ', &bids, &[(10_050_000, 40)]);
        self.odd_lot(ARCA, "ZT", b' ', &[], &[(10_080_000, 60)]);
        self.time += 5 * MINUTE;
        let round = self.round(NYSE, "ZT", b'R', (9_900_000, 9), (10_100_000, 4));
        let fifth = Odd {
            clear: b'S',
            bids: vec![(9_945_000, 15)],
            offers: Vec::new(),
        };
        self.send(NYSE, &[build::round_lot(&round, &fifth)]);
        self.time += 90 * SECOND;
        self.call(&Call::TryOrder {
            symbol: &build::symbol("ZT"),
            side: b'B',
            lots: 5,
            room: 325,
        });
        self.call(&Call::Read {
            symbol: &build::symbol("ZT"),
            room: 96,
        });
    }
}

/// The log of answers of a router whose engine kept the clear of a refused odd part.
pub fn router_log(recording: &[u8]) -> String {
    log_of::<{ mistake::CLEAR_STAYS }>(recording)
}

/// The log of answers of a router without a mistake.
pub fn right_log(recording: &[u8]) -> String {
    log_of::<{ mistake::NONE }>(recording)
}

/// A row for each message, with the entries that the router read behind the block.
fn log_of<const MISTAKE: u8>(recording: &[u8]) -> String {
    let head = Head::read(recording).expect("a recording");
    let engine = Book::<Recompute, MISTAKE>::fresh(head.n.into());
    let mut engine = engine.expect("a book");
    let mut rows = vec![COLUMNS.join(",")];
    for (index, record) in Records::new(recording).enumerate() {
        let done = carry_out(&mut engine, &record.call);
        let Call::TakeBlock { block, .. } = record.call else {
            continue;
        };
        if !matches!(done.number, 0 | 70) {
            continue;
        }
        let messages = parts(block);
        for (i, &(start, end)) in messages.iter().enumerate() {
            let symbol = symbol_of(&block[start..end]);
            let comes_again =
                |&(start, end): &(usize, usize)| symbol_of(&block[start..end]) == symbol;
            let is_last = !messages[i + 1..].iter().any(comes_again);
            let mut entries: Entries = NO_ENTRIES;
            let read = symbol.is_some_and(|symbol| engine.read(symbol, &mut entries) == 0);
            let mut cells = row![index, i, done.filled[4 * i + 1], done.filled[4 * i + 2]];
            match read && is_last {
                true => cells.extend(
                    decoded(&entries)
                        .into_iter()
                        .enumerate()
                        .flat_map(entry_cells),
                ),
                false => cells.resize(COLUMNS.len(), Cell::None),
            }
            let cells: Vec<String> = cells.iter().map(Cell::plain).collect();
            rows.push(cells.join(","));
        }
    }
    rows.join("\n") + "\n"
}
