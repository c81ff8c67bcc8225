//! The demo's tape: some minutes of four symbols on the lines of four exchanges and FINRA. The
//! prices are invented.

use second::build::{self, Odd, Round, Shown};

use crate::Tape;

/// A line and its letter.
#[derive(Clone, Copy)]
struct Line(u8, u8);

const NYSE: Line = Line(5, b'N');
const ARCA: Line = Line(7, b'P');
const NASDAQ: Line = Line(11, b'Q');
const CBOE: Line = Line(20, b'Z');
const FINRA: Line = Line(30, b'D');
const NOT_OPEN: Line = Line(41, b'K');

/// No quote on a side.
const NOTHING: Shown = (0, 0);

/// The tape, the same at every call.
pub fn tape() -> Tape {
    let mut feed = Feed::new();
    morning(&mut feed);
    trading(&mut feed);
    mishaps(&mut feed);
    halt(&mut feed);
    afternoon(&mut feed);
    feed.tape
}

/// Lines come up, every exchange shows its first quotes, makers follow.
fn morning(feed: &mut Feed) {
    feed.block(NYSE, |block| block.control(b'T'));
    feed.block(NASDAQ, |block| block.test());
    feed.block(FINRA, |block| block.control(b'O'));
    feed.block(NYSE, |block| {
        block.quote("IBM", b'O', (227_350_000, 12), (227_480_000, 9));
        block.quote("F", b'O', (11_040_000, 310), (11_060_000, 275));
        block.quote("NVR", b'O', (7_918_000_000, 2), (7_931_500_000, 1));
        block.quote("BRK.A", b'O', (741_200_000_000, 1), (742_050_000_000, 1));
    });
    feed.block(ARCA, |block| {
        block.quote("IBM", b'R', (227_370_000, 4), (227_460_000, 3));
        block.quote("F", b'R', (11_040_000, 188), (11_050_000, 96));
        block.quote("NVR", b'R', (7_920_250_000, 1), NOTHING);
        block.quote("BRK.A", b'R', NOTHING, (742_000_000_000, 1));
    });
    feed.block(NASDAQ, |block| {
        block.quote("IBM", b'R', (227_380_000, 2), (227_450_000, 5));
        block.quote("F", b'R', (11_040_000, 402), (11_050_000, 120));
        block.quote("NVR", b'R', (7_919_500_000, 2), (7_930_000_000, 1));
        block.quote("BRK.A", b'R', (741_350_000_000, 2), (741_990_000_000, 1));
    });
    feed.block(CBOE, |block| {
        block.quote("IBM", b'R', (227_380_000, 3), (227_450_000, 5));
        block.quote("F", b'R', (11_030_000, 77), (11_050_000, 64));
        block.quote("NVR", b'R', (7_919_000_000, 1), (7_929_750_000, 3));
    });
    feed.block(FINRA, |block| {
        block.maker("IBM", "ETMM", (227_360_000, 8), (227_460_000, 6));
        block.maker("IBM", "KNLI", (227_380_000, 1), (227_470_000, 4));
        block.maker("F", "ETMM", (11_040_000, 95), (11_060_000, 500));
        block.maker("BRK.A", "BLDR", (741_300_000_000, 1), (741_980_000_000, 1));
    });
}

/// Odd lots inside the national best, and quotes that move it.
fn trading(feed: &mut Feed) {
    feed.block(NYSE, |block| {
        block.odd("IBM", b' ', &[(227_400_000, 40)], &[(227_440_000, 12)]);
        block.odd("NVR", b' ', &[(7_921_000_000, 3)], &[]);
    });
    feed.block(NASDAQ, |block| {
        let odd = odd(b' ', &[(227_410_000, 25)], &[(227_430_000, 60)]);
        block.quote_with_odd("IBM", (227_390_000, 2), (227_450_000, 7), &odd);
        block.odd("F", b' ', &[(11_041_000, 50)], &[(11_049_500, 80)]);
    });
    feed.block(CBOE, |block| {
        let prices = [227_360_000, 227_370_000, 227_380_000, 227_395_000];
        block.odd("IBM", b' ', &prices.map(|price| (price, 10)), &[]);
        block.quote("NVR", b'R', (7_922_500_000, 1), (7_928_000_000, 2));
    });
    feed.block(CBOE, |block| {
        let fifth = odd(b'S', &[(227_405_000, 15)], &[]);
        block.quote_with_odd("IBM", (227_400_000, 6), (227_440_000, 2), &fifth);
    });
    feed.block(FINRA, |block| {
        block.odd("IBM", b' ', &[(227_415_000, 20)], &[(227_425_000, 35)]);
        block.odd("F", b' ', &[(11_041_500, 40)], &[(11_049_000, 25)]);
    });
    feed.block(ARCA, |block| {
        block.quote("BRK.A", b'E', (741_900_000_000, 3), (741_950_000_000, 1));
        block.quote("F", b'R', (11_045_000, 0), (11_050_000, 140));
        block.odd("IBM", b' ', &[(227_405_000, 100)], &[]);
    });
    feed.block(NYSE, |block| {
        block.quote("IBM", b'R', (227_410_000, 3), (227_450_000, 8));
        block.quote("F", b'R', (11_040_000, 520), (11_060_000, 260));
        block.quote("NVR", b'R', (7_922_500_000, 2), (7_930_000_000, 4));
        block.quote("BRK.A", b'R', (741_380_000_000, 1), (741_990_000_000, 1));
    });
}

/// What a line brings on a bad day.
fn mishaps(feed: &mut Feed) {
    feed.miss(ARCA, 3);
    feed.block(ARCA, |block| {
        block.quote("IBM", b'R', (227_410_000, 5), (227_440_000, 1));
        block.quote("TSLA", b'R', (251_020_000, 4), (251_090_000, 2));
        block.quote("F", b'R', (0, 12), (11_060_000, 45));
    });
    feed.again();
    feed.damaged(NASDAQ, |block| {
        block.quote("IBM", b'R', (272_410_000, 9), (272_450_000, 9));
    });
    feed.block(NOT_OPEN, |block| {
        block.quote("F", b'R', (11_040_000, 10), (11_060_000, 10));
    });
    feed.block(NASDAQ, |block| {
        block.quote("NVR", b'X', (7_921_000_000, 1), (7_930_000_000, 1));
        block.quote("IBM", b'R', (227_400_000, 4), (227_440_000, 6));
    });
}

/// The primary exchange of NVR halts it: its best prices are gone, quotes go on being stored, and
/// trading brings back what then stands. No other exchange may do so.
fn halt(feed: &mut Feed) {
    feed.block(NYSE, |block| {
        block.status("NVR", b'H');
        block.quote("NVR", b'R', (7_921_500_000, 3), (7_931_000_000, 2));
    });
    feed.block(CBOE, |block| {
        block.quote("NVR", b'R', (7_921_000_000, 1), (7_929_500_000, 2));
        block.status("NVR", b'T');
    });
    feed.block(NYSE, |block| block.status("NVR", b'T'));
}

/// FINRA closes and opens again, makers move, venues clear their odd lots.
fn afternoon(feed: &mut Feed) {
    feed.block(ARCA, |block| {
        block.quote("NVR", b'R', (7_922_000_000, 3), (7_929_000_000, 1));
        block.quote("F", b'R', (11_040_000, 210), (11_050_000, 35));
        block.odd("NVR", b' ', &[(7_922_750_000, 6)], &[(7_927_250_000, 5)]);
    });
    feed.block(FINRA, |block| {
        block.maker("IBM", "KNLI", (227_420_000, 2), (227_430_000, 2));
        block.maker("NVR", "BLDR", (7_923_000_000, 1), (7_927_500_000, 1));
        block.maker("F", "ETMM", NOTHING, NOTHING);
    });
    feed.block(FINRA, |block| block.odd("IBM", b'X', &[], &[]));
    feed.block(FINRA, |block| block.control(b'C'));
    feed.block(NYSE, |block| block.control(b'I'));
    feed.block(FINRA, |block| block.control(b'O'));
    feed.block(FINRA, |block| {
        block.maker("F", "KNLI", (11_040_000, 600), (11_060_000, 30));
        block.maker("BRK.A", "BLDR", (741_420_000_000, 1), (741_960_000_000, 1));
    });
    feed.block(NASDAQ, |block| {
        block.odd("IBM", b'X', &[(227_425_000, 33)], &[]);
        block.odd("F", b'B', &[], &[]);
        block.quote("BRK.A", b'R', (741_410_000_000, 1), (741_970_000_000, 2));
    });
    feed.block(CBOE, |block| {
        block.quote("IBM", b'R', (227_420_000, 7), (227_440_000, 4));
        block.quote("F", b'C', (11_050_000, 90), (11_060_000, 90));
        block.quote("NVR", b'F', (7_922_000_000, 1), (7_926_000_000, 1));
        block.odd("NVR", b' ', &[(7_923_250_000, 4)], &[(7_927_000_000, 2)]);
    });
}

fn odd(clear: u8, bids: &[Shown], offers: &[Shown]) -> Odd {
    Odd {
        clear,
        bids: bids.to_vec(),
        offers: offers.to_vec(),
    }
}

/// The tape so far, the next number of each line, and the time.
struct Feed {
    tape: Tape,
    next: [u32; 64],
    time: u64,
}

impl Feed {
    fn new() -> Feed {
        let symbols = [("IBM", 100), ("F", 100), ("NVR", 10), ("BRK.A", 1)];
        let symbols = symbols.map(|(symbol, round_lot)| (symbol, round_lot, NYSE.1));
        let lines = [NYSE, ARCA, NASDAQ, CBOE, FINRA];
        Feed {
            tape: Tape::new(&symbols, &lines.map(|Line(line, letter)| (line, letter))),
            next: [1; 64],
            time: HALF_PAST_NINE,
        }
    }

    /// A block of some messages under the number that its line expects.
    fn block(&mut self, line: Line, write: impl FnOnce(&mut Messages)) {
        let mut messages = Messages {
            letter: line.1,
            time: self.time,
            written: Vec::new(),
        };
        write(&mut messages);
        self.time = messages.time;
        let next = &mut self.next[usize::from(line.0)];
        self.tape.send(line.0, *next, &messages.written);
        if !matches!(&messages.written[0][..2], b"CI" | b"CT" | b"C5") {
            *next += messages.written.len() as u32;
        }
    }

    /// So many messages of a line got lost.
    fn miss(&mut self, line: Line, messages: u32) {
        self.next[usize::from(line.0)] += messages;
    }

    /// The last block comes a second time.
    fn again(&mut self) {
        let last = self.tape.records.last().cloned();
        self.tape.records.extend(last);
    }

    /// A block of which a byte is altered on its way.
    fn damaged(&mut self, line: Line, write: impl FnOnce(&mut Messages)) {
        let next = self.next;
        self.block(line, write);
        self.next = next;
        if let Some((_, block)) = self.tape.records.last_mut() {
            block[30] ^= 1;
        }
    }
}

/// In nanoseconds since midnight.
const HALF_PAST_NINE: u64 = 34_200_000_000_000;
const BETWEEN_MESSAGES: u64 = 1_700_000;

/// The messages of a block, as they are written.
struct Messages {
    letter: u8,
    time: u64,
    written: Vec<Vec<u8>>,
}

impl Messages {
    fn control(&mut self, message_type: u8) {
        let time = self.tick();
        let message = build::header(b'C', message_type, self.letter, time);
        self.written.push(message);
    }

    fn test(&mut self) {
        let time = self.tick();
        self.written.push(build::test(self.letter, time));
    }

    fn quote(&mut self, symbol: &str, condition: u8, bid: Shown, offer: Shown) {
        let round = self.round(symbol, condition, bid, offer);
        self.written.push(build::round_lot(&round, &Odd::IDLE));
    }

    fn quote_with_odd(&mut self, symbol: &str, bid: Shown, offer: Shown, odd: &Odd) {
        let round = self.round(symbol, b'R', bid, offer);
        self.written.push(build::round_lot(&round, odd));
    }

    /// Q M, and by FINRA Q T.
    fn odd(&mut self, symbol: &str, clear: u8, bids: &[Shown], offers: &[Shown]) {
        let time = self.tick();
        let odd = odd(clear, bids, offers);
        let write = match self.letter == FINRA.1 {
            true => build::finra_odd_lot,
            false => build::odd_lot,
        };
        let message = write(self.letter, time, build::symbol(symbol), &odd);
        self.written.push(message);
    }

    fn status(&mut self, symbol: &str, status: u8) {
        let time = self.tick();
        let message = build::trading_status(self.letter, time, build::symbol(symbol), status);
        self.written.push(message);
    }

    fn maker(&mut self, symbol: &str, maker: &str, bid: Shown, offer: Shown) {
        let round = self.round(symbol, b'R', bid, offer);
        let message = build::maker_quote(&round, build::maker(maker));
        self.written.push(message);
    }

    fn round(&mut self, symbol: &str, condition: u8, bid: Shown, offer: Shown) -> Round {
        Round {
            letter: self.letter,
            time: self.tick(),
            symbol: build::symbol(symbol),
            condition,
            bid,
            offer,
        }
    }

    fn tick(&mut self) -> u64 {
        self.time += BETWEEN_MESSAGES;
        self.time
    }
}
