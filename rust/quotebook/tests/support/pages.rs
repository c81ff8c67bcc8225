//! Damaged pages against a plain walk of every quote: one accepted message on each page, and the six
//! entries that are read then beside those that `reading.rs` works out from the page's bytes.

use std::fmt::{Display, Formatter, Result as Shown};

use second::build::{self, Odd, Round};
use second::generate::Random;
use second::QuoteBook;

use super::damage::{any_contents, crowd, damage_keys, retime, scatter, shuffle};
use super::guarded::Guarded;
use super::layout::{in_page, page, record, CELLS, CELL_LEN, CONTENTS, ENTRIES};
use super::reading::{own_keys, Reading};

const SYMBOL: &str = "ZT";
/// All letters but S have a line, D among them.
const LETTERS: &[u8; 25] = b"ABCDEFGHIJKLMNOPQRTUVWXYZ";

/// What the pages had.
#[derive(Default, Debug)]
pub struct Met {
    pub pages: u64,
    /// Pages with a national leader by price, size, time and letter, on either side.
    pub by: [u64; 4],
    /// Pages with an odd lot entry.
    pub odd: u64,
    /// Keys that were not their own when the message came.
    pub foreign: u64,
}

const REASONS: &[u8; 4] = b"PSTL";

impl Met {
    fn count(&mut self, entries: &[u8], foreign: usize) {
        self.pages += 1;
        for (times, reason) in self.by.iter_mut().zip(REASONS) {
            *times += u64::from([entries[2], entries[18]].contains(reason));
        }
        self.odd += u64::from(entries[64] != b' ' || entries[80] != b' ');
        self.foreign += foreign as u64;
    }
}

impl Display for Met {
    fn fmt(&self, out: &mut Formatter) -> Shown {
        writeln!(out, "{} pages", self.pages)?;
        for (times, reason) in self.by.iter().zip(REASONS) {
            let reason = char::from(*reason);
            writeln!(out, "{times} with a national leader by {reason}")?;
        }
        writeln!(out, "{} with an odd lot entry", self.odd)?;
        write!(out, "{} keys that were not their own", self.foreign)
    }
}

/// So many pages, each of a seed of its own from the first on.
pub fn run(pages: u64, first: u64) -> Result<Met, String> {
    let fresh = fresh();
    let mut met = Met::default();
    for at in 0..pages {
        let seed = first.wrapping_add(at);
        one(&fresh, seed, &mut met).map_err(|what| format!("seed {seed}: {what}"))?;
    }
    Ok(met)
}

/// A book of one symbol, a line for each letter and an open day.
fn fresh() -> Vec<u8> {
    let mut book = Guarded::fresh(1);
    assert_eq!(book.add_symbol(&build::symbol(SYMBOL), 100, b'N'), 0);
    for (line, &letter) in (0..).zip(LETTERS) {
        assert_eq!(book.open_line(line, letter), 0);
    }
    assert_eq!(book.start_day(), 0);
    book.bytes().to_vec()
}

fn one(fresh: &[u8], seed: u64, met: &mut Met) -> Result<(), String> {
    let mut random = Random::new(seed);
    let mut memory = fresh.to_vec();
    damaged(&mut random, &mut memory[page(0)]);
    let message = accepted(&mut random, seed, &mut memory[page(0)]);
    let own = own_keys(&memory[page(0)]).into_iter();
    let foreign = own.filter(|(at, key)| memory[in_page(0, at.clone())] != *key);
    let foreign = foreign.count();

    let mut expected = Reading::of(&memory[page(0)]);
    let foretold = expected.take(&message);
    let mut book = Guarded::over(&memory);
    let line = LETTERS.iter().position(|&letter| letter == message[2]);
    let line = line.ok_or("no line")?;
    let (sequence, _) = record(&memory, line);
    let mut answer = [0; 180];
    let block = build::block(sequence, std::slice::from_ref(&message));
    let report = book.take_block(line as u32, &block, &mut answer);
    if (report.number, answer[1], foretold) != (0, 0, 0) {
        let [_, code, ..] = answer;
        return Err(format!("{}, code {code}, not {foretold}", report.number));
    }
    let mut entries = [0; 96];
    let number = book.read(&build::symbol(SYMBOL), &mut entries);
    let plain = expected.entries();
    if number != 0 || entries != plain {
        return Err(format!("read {number}:\n{entries:?}, not\n{plain:?}"));
    }
    let now = Reading::of(&book.bytes()[page(0)]);
    if !now.agrees(&expected) {
        return Err(format!("the page reads\n{now:?}, not\n{expected:?}"));
    }
    met.count(&entries, foreign);
    Ok(())
}

/// Damages a page in one of many ways.
fn damaged(random: &mut Random, page: &mut [u8]) {
    match random.below(10) {
        0 | 1 => any_contents(random, page),
        _ => crowd(random, page),
    }
    match random.below(10) {
        0..=2 => damage_keys(random, page),
        3 => retime(random, page),
        4 => shuffle(random, page),
        5 => scatter(random, &mut page[CONTENTS]),
        6 => {
            let any = random.bytes(ENTRIES.len());
            page[ENTRIES].copy_from_slice(&any);
        }
        _ => {}
    }
}

/// A message that the page takes with 0: Q K, Q M, Q U and T S in turn.
fn accepted(random: &mut Random, turn: u64, page: &mut [u8]) -> Vec<u8> {
    match turn % 4 {
        0 => {
            let letter = letter(random);
            let round = Round {
                condition: random.usually(90, b"RRRABEFHOW", b"CNU"),
                ..round(random, letter, page)
            };
            let message = build::round_lot(&round, &odd(random, page));
            let cleared = build::round_lot(&round, &clear());
            taken(page, message).unwrap_or(cleared)
        }
        1 => {
            let (letter, symbol) = (letter(random), build::symbol(SYMBOL));
            let time = time(random);
            let message = build::odd_lot(letter, time, symbol, &odd(random, page));
            let cleared = build::odd_lot(letter, time, symbol, &clear());
            taken(page, message).unwrap_or(cleared)
        }
        2 => {
            let name = random.pick(&[*b"MM  ", *b"AB  ", *b"ZZZZ", *b"AAAA", *b"Q   "]);
            let message = build::maker_quote(&round(random, b'D', page), name);
            match taken(page, message.clone()) {
                Some(message) => message,
                // Sixteen others stand: one of them goes.
                None => {
                    page[CELLS.start + CELL_LEN * random.below(16) + 4] = 0;
                    message
                }
            }
        }
        _ => {
            let status = random.usually(90, b"T", b"H");
            build::trading_status(b'N', time(random), build::symbol(SYMBOL), status)
        }
    }
}

/// The message, if the page takes it whole.
fn taken(page: &[u8], message: Vec<u8>) -> Option<Vec<u8>> {
    (Reading::of(page).take(&message) == 0).then_some(message)
}

/// A letter that sends Q K and Q M.
fn letter(random: &mut Random) -> u8 {
    let letter = random.pick(LETTERS);
    if letter == b'D' {
        b'E'
    } else {
        letter
    }
}

fn time(random: &mut Random) -> u64 {
    let any = random.number();
    random.usually(80, &[7, 8, 9], &[0, u64::MAX, any])
}

/// Mostly a price that the page has, or one beside it.
fn price(random: &mut Random, page: &[u8], side: usize) -> u64 {
    let of_page = Reading::of(page).price_of(random.below(42), side);
    let beside = [of_page.wrapping_add(1), of_page.wrapping_sub(1)];
    let (standing, any) = ([of_page, of_page, beside[0], beside[1]], random.number());
    let full = u64::from(u32::MAX);
    random.usually(
        80,
        &standing,
        &[10_000_000, full, full + 1, u64::MAX, 1, any],
    )
}

/// A regular quote of prices and sizes as the page may have them.
fn round(random: &mut Random, letter: u8, page: &[u8]) -> Round {
    let [bid, offer] = [0, 1].map(|side| {
        let (price, any) = (price(random, page, side), random.number() as u32);
        let size = random.usually(90, &[1, 1, 3, 9], &[0, u32::MAX, any]);
        // A price of 0 has no size (47).
        (price, if price == 0 { 0 } else { size })
    });
    Round::regular(letter, time(random), SYMBOL, bid, offer)
}

/// An odd part, in some cases with a space and no items.
fn odd(random: &mut Random, page: &[u8]) -> Odd {
    if random.percent(40) {
        return Odd::IDLE;
    }
    let clear = random.pick(b" BSX");
    let [bids, offers] = [0, 1].map(|side| {
        let items = 0..random.below(5);
        let items = items.map(|_| (price(random, page, side), random.below(100) as u32));
        items.collect()
    });
    Odd {
        clear,
        bids,
        offers,
    }
}

/// Every page takes this odd part.
fn clear() -> Odd {
    Odd {
        clear: b'X',
        ..Odd::IDLE
    }
}
