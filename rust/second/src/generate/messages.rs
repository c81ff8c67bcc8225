//! Messages that mostly pass every check.

use super::pools::{Symbol, Theme};
use super::random::Random;
use super::{Generator, Source};
use crate::build::{
    finra_odd_lot, header, maker_quote, odd_lot, round_lot, test, trading_status, Odd, Round, Shown,
};
use crate::terms::FINRA;

impl Generator {
    /// A quote that belongs on a line of this letter, seldom one that does not.
    pub(super) fn quote_message(&mut self, letter: u8) -> Vec<u8> {
        if self.random.percent(self.theme.statuses()) {
            return self.status_message(letter);
        }
        let misplaced = self.random.percent(3);
        let of_finra = (letter == FINRA) != misplaced;
        let (symbol, round_lot_shares) = self.draw_symbol();
        if self.random.percent(self.theme.odd_lots()) {
            let odd = self.draw_odd(round_lot_shares);
            let write = if of_finra { finra_odd_lot } else { odd_lot };
            return write(letter, self.draw_time(), symbol, &odd);
        }
        if of_finra {
            return self.maker_message(letter, symbol);
        }
        let round = self.draw_round((letter, None), symbol);
        let with_odd = match self.theme {
            Theme::Levels => 80,
            _ => 35,
        };
        if self.random.percent(with_odd) {
            let odd = self.draw_odd(round_lot_shares);
            return round_lot(&round, &odd);
        }
        round_lot(&round, &Odd::IDLE)
    }

    /// A status, mostly of a symbol whose primary letter this is. Halts are short: trading comes
    /// more often.
    fn status_message(&mut self, letter: u8) -> Vec<u8> {
        let of_letter = |listed: &(Symbol, u32, u8)| listed.2 == letter;
        let own: Vec<Symbol> = self
            .frequent()
            .into_iter()
            .filter(of_letter)
            .map(|own| own.0)
            .collect();
        let symbol = if own.is_empty() || self.random.percent(15) {
            self.draw_symbol().0
        } else {
            self.random.pick(&own)
        };
        let status = self.random.usually(92, b"HHTTT", b"htDRS \x00\xff");
        trading_status(letter, self.draw_time(), symbol, status)
    }

    fn maker_message(&mut self, letter: u8, symbol: Symbol) -> Vec<u8> {
        let maker = self.random.pick(&self.pools.makers);
        let mut round = self.draw_round((letter, Some(maker)), symbol);
        round.condition = self.random.pick(b"RRRRRL");
        let empty = if self.theme == Theme::Makers { 8 } else { 20 };
        if self.random.percent(empty) {
            round.bid = (0, 0);
            round.offer = (0, 0);
        }
        maker_quote(&round, maker)
    }

    /// A control message; on a line of D mostly FINRA Close or Open.
    pub(super) fn control_message(&mut self, letter: u8) -> Vec<u8> {
        let close_or_open = if letter == FINRA { 70 } else { 0 };
        let message_type = self.random.usually(close_or_open, b"CO", b"ITCO55IT?Q");
        let time = self.draw_time();
        match message_type {
            b'5' => test(letter, time),
            _ => header(b'C', message_type, letter, time),
        }
    }

    /// A listed symbol with its round lot, seldom one that is not listed.
    fn draw_symbol(&mut self) -> (Symbol, u32) {
        if self.listed.is_empty() || self.random.percent(3) {
            return (self.random.pick(&self.pools.symbols), 100);
        }
        let (symbol, round_lot, _) = self.draw_listed();
        (symbol, round_lot)
    }

    fn draw_time(&mut self) -> u64 {
        self.random.pick(&self.pools.times)
    }

    /// A new quote, or the last one of its letter or maker again.
    fn draw_round(&mut self, source: Source, symbol: Symbol) -> Round {
        let again = self.random.percent(35);
        let last = self.quoted.get(&(source, symbol)).filter(|_| again);
        let sides = match last.copied() {
            Some(sides) => sides.map(|shown| self.draw_again(shown)),
            None => [self.draw_shown(), self.draw_shown()],
        };
        self.quoted.insert((source, symbol), sides);
        Round {
            letter: source.0,
            time: self.draw_time(),
            symbol,
            condition: self.random.usually(60, b"R", b"ABCEFHNORUWEF"),
            bid: sides[0],
            offer: sides[1],
        }
    }

    /// The same side, mostly of the same size.
    fn draw_again(&mut self, (price, size): Shown) -> Shown {
        match self.random.weighted(&[55, 25, 8, 12]) {
            0 => (price, size),
            1 if price > 0 => (price, self.random.pick(&self.pools.sizes)),
            2 => (price, 0),
            _ => self.draw_shown(),
        }
    }

    /// Mostly a price with a size, else an indication or no quote.
    fn draw_shown(&mut self) -> Shown {
        let price = self.random.pick(&self.pools.prices);
        let size = self.random.pick(&self.pools.sizes);
        match self.random.weighted(&[80, 8, 12]) {
            0 => (price, size),
            1 => (price, 0),
            _ => (0, 0),
        }
    }

    /// An odd part; one in seven may have faulty items or too many.
    fn draw_odd(&mut self, round_lot: u32) -> Odd {
        let faulty = self.random.percent(14);
        let counts = if faulty {
            [25, 30, 20, 10, 10, 5, 2]
        } else {
            [30, 35, 15, 10, 10, 0, 0]
        };
        let clear = self.random.pick(b"          BBSSXX");
        let mut items = || {
            let count = self.random.weighted(&counts);
            let item = |_| draw_item(&mut self.random, &self.pools.prices, round_lot, faulty);
            (0..count).map(item).collect()
        };
        let bids = items();
        let offers = items();
        Odd {
            clear,
            bids,
            offers,
        }
    }
}

/// Zero shares, or shares under the round lot; a faulty item has price 0 or too many shares.
fn draw_item(random: &mut Random, prices: &[u64], round_lot: u32, faulty: bool) -> Shown {
    let price = random.pick(prices);
    let below = [1, round_lot / 2, round_lot - 1].map(|shares| shares.min(round_lot - 1));
    let shares = random.usually(20, &[0], &below);
    match if faulty { random.below(12) } else { 3 } {
        0 => (0, shares),
        1 => (price, round_lot),
        2 => (price, random.pick(&[round_lot + 1, u32::MAX])),
        _ => (price, shares),
    }
}
