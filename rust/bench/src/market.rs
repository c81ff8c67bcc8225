//! A small market: stocks whose prices walk, the letters that quote them, makers and odd lots.
//!
//! It draws messages as exchanges send them. The market remembers which odd-lot levels stand, so
//! that parts are refused only where that is meant.

use second::build::{self, Odd, Round, Shown};
use second::generate::Random;
use second::terms::{FINRA, LEVELS_MAX};

/// The letters that have a line, in the order of the lines: fifteen exchanges, and D.
pub const LETTERS: [u8; 16] = *b"ABCHJKLMNPTUVXZD";

/// How often each of the lines sends, beside the others.
const LINE_WEIGHTS: [usize; 16] = [3, 4, 2, 3, 5, 9, 2, 2, 12, 14, 16, 4, 5, 3, 11, 5];

/// Makers quote under these names; each stock has its own eight of them.
const MAKERS: [&str; 12] = [
    "CDEL", "ETMM", "GTSM", "JNST", "MLCO", "NITE", "UBSS", "VRTU", "WEMM", "XTXM", "G", "HRT",
];
const MAKERS_OF_A_STOCK: usize = 8;

/// Sizes in round lots: small ones are frequent.
const SIZES: [u32; 12] = [1, 1, 1, 2, 2, 3, 4, 5, 8, 10, 20, 40];

/// A cent, prices having six decimals.
const TICK: u64 = 10_000;
/// Odd lots are also priced in tenths of a cent.
const ODD_TICK: u64 = TICK / 10;

/// Bid and offer.
type Sides<T> = [T; 2];

/// The prices of the levels that stand for one letter.
#[derive(Clone, Default)]
struct Standing(Sides<Vec<u64>>);

/// One listed symbol.
pub struct Stock {
    /// Its eleven bytes.
    pub symbol: [u8; 11],
    /// Shares of a round lot.
    pub round_lot: u32,
    /// How often it is quoted, beside the others.
    weight: usize,
    /// The best bid of the walk in ticks, and the ticks from there to the best offer.
    bid: u64,
    spread: u64,
    /// The levels of each letter.
    levels: [Standing; LETTERS.len()],
}

/// The stocks, the clock and the randomness.
pub struct Market {
    pub stocks: Vec<Stock>,
    random: Random,
    /// Nanoseconds of the day.
    time: u64,
}

impl Market {
    /// A market of n stocks. Their activity falls as one divided by the place to the power of 0.8,
    /// about as it does among the frequently quoted ones.
    pub fn new(seed: u64, n: usize) -> Market {
        let mut random = Random::new(seed);
        let stocks = (0..n).map(|place| Stock::draw(&mut random, place));
        Market {
            stocks: stocks.collect(),
            random,
            time: 34_200_000_000_000,
        }
    }

    /// The place of a line, by how often they send.
    pub fn draw_line(&mut self) -> usize {
        self.random.weighted(&LINE_WEIGHTS)
    }

    /// A number from 1 to the bound.
    pub fn draw_count(&mut self, bound: usize) -> usize {
        1 + self.random.below(bound)
    }

    /// A message of the line: of D a maker's quote, of the others a round lot quote, one of five
    /// with an odd part, or odd lots alone. Three of a hundred are to be refused.
    pub fn message(&mut self, line: usize) -> Vec<u8> {
        self.time += 1 + self.random.below(20_000) as u64;
        let stock = self.draw_stock();
        let mut message = if LETTERS[line] == FINRA {
            self.maker_quote(stock)
        } else if self.random.percent(15) {
            self.odd_lot(line, stock)
        } else if self.random.percent(20) {
            let odd = self.odd_part(line, stock);
            self.round_lot(line, stock, &odd)
        } else {
            self.round_lot(line, stock, &Odd::IDLE)
        };
        if self.random.percent(3) {
            self.spoil(line, &mut message);
        }
        message
    }

    /// A message of 60 bytes: a round lot quote without an odd part, or a maker's quote.
    pub fn quote(&mut self, line: usize) -> Vec<u8> {
        let stock = self.draw_stock();
        self.quote_of(line, stock)
    }

    /// The same for a stock.
    pub fn quote_of(&mut self, line: usize, stock: usize) -> Vec<u8> {
        self.time += 1 + self.random.below(20_000) as u64;
        if LETTERS[line] == FINRA {
            self.maker_quote(stock)
        } else {
            self.round_lot(line, stock, &Odd::IDLE)
        }
    }

    /// An odd-lot message of 36 bytes: a clear mark and no items. None on D's line.
    pub fn clear(&mut self, line: usize) -> Vec<u8> {
        self.time += 1 + self.random.below(20_000) as u64;
        let stock = self.draw_stock();
        let odd = Odd {
            clear: self.random.pick(b"BSX"),
            ..Odd::IDLE
        };
        self.stocks[stock].levels[line].clear(odd.clear);
        self.odd_lot_message(line, stock, &odd)
    }

    /// A message of 20 bytes, the shortest: a round lot quote cut off behind its header, refused
    /// with 42.
    pub fn cut(&mut self, line: usize) -> Vec<u8> {
        self.time += 1 + self.random.below(20_000) as u64;
        build::header(b'Q', b'K', LETTERS[line], self.time)
    }

    fn draw_stock(&mut self) -> usize {
        let total: usize = self.stocks.iter().map(|stock| stock.weight).sum();
        let mut left = self.random.below(total);
        let reached = |stock: &Stock| match left.checked_sub(stock.weight) {
            Some(rest) => {
                left = rest;
                false
            }
            None => true,
        };
        self.stocks.iter().position(reached).unwrap_or(0)
    }

    /// The walk: one step in five messages, up or down a tick, sometimes a wider or narrower spread.
    fn walk(&mut self, stock: usize) {
        let stock = &mut self.stocks[stock];
        if self.random.percent(20) {
            let up = self.random.percent(50);
            stock.bid = if up { stock.bid + 1 } else { stock.bid - 1 }.max(200);
        }
        if self.random.percent(3) {
            stock.spread = self.random.pick(&[1, 1, 1, 2, 2, 3]);
        }
    }

    /// A two-sided quote at the walk's prices or some ticks behind them; one side is sometimes
    /// missing.
    fn sides(&mut self, stock: usize) -> Sides<Shown> {
        self.walk(stock);
        let Stock { bid, spread, .. } = self.stocks[stock];
        let behind = [0, 1, 2, 3, 5, 12];
        let weights = [42, 28, 15, 8, 5, 2];
        let mut draw = || behind[self.random.weighted(&weights)];
        let prices = [bid - draw(), bid + spread + draw()];
        prices.map(|price| match self.random.below(100) {
            0 => (0, 0),
            _ => (price * TICK, self.random.pick(&SIZES)),
        })
    }

    fn round(&mut self, line: usize, stock: usize, condition: u8) -> Round {
        let [bid, offer] = self.sides(stock);
        Round {
            letter: LETTERS[line],
            time: self.time,
            symbol: self.stocks[stock].symbol,
            condition,
            bid,
            offer,
        }
    }

    fn round_lot(&mut self, line: usize, stock: usize, odd: &Odd) -> Vec<u8> {
        let condition = self.random.usually(95, b"R", b"ABHOWEFCNU");
        let round = self.round(line, stock, condition);
        build::round_lot(&round, odd)
    }

    /// A maker's quote; two of a hundred are empty and free the maker's cell.
    fn maker_quote(&mut self, stock: usize) -> Vec<u8> {
        let line = LETTERS.len() - 1;
        let mut round = self.round(line, stock, b'R');
        if self.random.percent(2) {
            (round.bid, round.offer) = ((0, 0), (0, 0));
        }
        let maker = stock + self.random.below(MAKERS_OF_A_STOCK);
        build::maker_quote(&round, build::maker(MAKERS[maker % MAKERS.len()]))
    }

    fn odd_lot(&mut self, line: usize, stock: usize) -> Vec<u8> {
        let odd = self.odd_part(line, stock);
        self.odd_lot_message(line, stock, &odd)
    }

    fn odd_lot_message(&self, line: usize, stock: usize, odd: &Odd) -> Vec<u8> {
        let symbol = self.stocks[stock].symbol;
        build::odd_lot(LETTERS[line], self.time, symbol, odd)
    }

    /// An odd part of one to three items, a fifth of them with a clear mark, that leaves at most
    /// four levels on each side.
    fn odd_part(&mut self, line: usize, stock: usize) -> Odd {
        let mut levels = std::mem::take(&mut self.stocks[stock].levels[line]);
        let mut odd = Odd {
            clear: self.random.usually(80, b" ", b"BSX"),
            ..Odd::IDLE
        };
        levels.clear(odd.clear);
        for _ in 0..self.random.pick(&[1, 1, 1, 2, 2, 3]) {
            let offer = self.random.percent(50);
            let item = self.odd_item(stock, offer, &mut levels.0[usize::from(offer)]);
            if offer {
                odd.offers.push(item);
            } else {
                odd.bids.push(item);
            }
        }
        self.stocks[stock].levels[line] = levels;
        odd
    }

    /// A level that stands is changed or removed, or another is added while there is room.
    fn odd_item(&mut self, stock: usize, offer: bool, standing: &mut Vec<u64>) -> Shown {
        let Stock { bid, spread, .. } = self.stocks[stock];
        let shares = 1 + self.random.below(self.stocks[stock].round_lot as usize - 1) as u32;
        let full = standing.len() == LEVELS_MAX;
        if full || !standing.is_empty() && self.random.percent(50) {
            let known = self.random.below(standing.len());
            if full || self.random.percent(40) {
                return (standing.remove(known), 0);
            }
            return (standing[known], shares);
        }
        let away = ODD_TICK * self.random.below(40) as u64;
        let price = if offer {
            bid * TICK + ODD_TICK + away
        } else {
            (bid + spread) * TICK - ODD_TICK - away
        };
        if !standing.contains(&price) {
            standing.push(price);
        }
        (price, shares)
    }

    /// Spoils a message in one of the ways that participants do.
    fn spoil(&mut self, line: usize, message: &mut [u8]) {
        if message[1] == b'K' && message.len() > 60 {
            // The first odd item has a million shares: the round part is taken, the odd part not.
            message[68..72].copy_from_slice(&1_000_000u32.to_be_bytes());
            return;
        }
        match self.random.below(5) {
            0 => message[1] = b'Z',
            1 => message[2] = LETTERS[(line + 1) % LETTERS.len()],
            2 => message[3] = 1,
            3 => message[20..24].copy_from_slice(b"NONE"),
            _ => message[31] = b'?',
        }
    }
}

impl Stock {
    fn draw(random: &mut Random, place: usize) -> Stock {
        let mut text = String::new();
        for _ in 0..random.pick(&[1, 2, 3, 3, 3, 4, 4]) {
            text.push(char::from(b'A' + random.below(26) as u8));
        }
        // The place makes the symbols differ; A to Z begin them.
        text.push_str(&format!(".{place}"));
        Stock {
            symbol: build::symbol(&text),
            round_lot: random.usually(85, &[100], &[10, 25, 50]),
            weight: (10_000.0 / f64::powf(1.0 + place as f64, 0.8)) as usize,
            bid: 500 + random.below(30_000) as u64,
            spread: random.pick(&[1, 1, 2, 3]),
            levels: Default::default(),
        }
    }
}

impl Standing {
    fn clear(&mut self, mark: u8) {
        let [bids, offers] = &mut self.0;
        if matches!(mark, b'B' | b'X') {
            bids.clear();
        }
        if matches!(mark, b'S' | b'X') {
            offers.clear();
        }
    }
}
