//! Where things lie in a book, as docs/LAYOUT.md says.

use std::ops::Range;

pub const MARK: &[u8; 8] = b"QUOTEBK1";
pub const N: usize = 8;
pub const COUNT: usize = 9;
pub const DAY: usize = 10;
pub const FIRST_PAGE: Range<usize> = 11..15;
pub const LINES: usize = 64;
pub const OPENING_LEN: usize = 976;
/// Behind the lines: B, a share for each line, the charges of each line.
pub const ALLOWANCE: usize = 847;
pub const SHARES: usize = 848;
pub const CHARGES: usize = 912;
pub const PAGE_LEN: usize = 6723;

/// Within a page: the symbol, the round lot, the primary letter, the hints (only those of the first
/// page are used), the six entries, and all that follows the hints.
pub const SYMBOL: Range<usize> = 0..11;
pub const LOT: usize = 11;
pub const PRIMARY: usize = 12;
pub const HINTS: Range<usize> = 13..264;
pub const ENTRIES: Range<usize> = 264..360;
pub const CONTENTS: Range<usize> = 264..PAGE_LEN;
/// A slot for each letter: a quote, then four odd lot bids and four odd lot offers.
pub const SLOTS: Range<usize> = 360..5586;
pub const SLOT_LEN: usize = 201;
pub const LEVELS: usize = 41;
pub const LEVEL_LEN: usize = 20;
/// A cell for each of sixteen makers: the name, then a quote.
pub const CELLS: Range<usize> = 5586..6306;
pub const CELL_LEN: usize = 45;
/// H while the symbol is halted.
pub const STATUS: usize = 6306;
/// Four rows of 26 keys: the letters' bids, their offers, their first odd lot bids, their first odd lot
/// offers.
pub const KEYS: Range<usize> = 6307..PAGE_LEN;
pub const KEY_LEN: usize = 4;
pub const KEY_ROW: usize = 104;

/// One byte of the opening.
pub fn byte(at: usize) -> Range<usize> {
    at..at + 1
}

/// The record of a line: its letter, its next expected number, its count.
pub fn line(line: usize) -> Range<usize> {
    let start = 15 + 13 * line;
    start..start + 13
}

/// The next expected number and the count of a line.
pub fn moved(line_number: usize) -> Range<usize> {
    let Range { start, end } = line(line_number);
    start + 1..end
}

pub fn page(page: usize) -> Range<usize> {
    let start = OPENING_LEN + PAGE_LEN * page;
    start..start + PAGE_LEN
}

/// A part of a page, in the book.
pub fn in_page(page_number: usize, part: Range<usize>) -> Range<usize> {
    let start = page(page_number).start;
    start + part.start..start + part.end
}

/// The slot of a letter, in its page. Letters are counted from 0 on, bid is 0, offer is 1.
pub fn slot(letter: usize) -> Range<usize> {
    let start = SLOTS.start + SLOT_LEN * letter;
    start..start + SLOT_LEN
}

fn key(row: usize, letter: usize) -> Range<usize> {
    let start = KEYS.start + KEY_ROW * row + KEY_LEN * letter;
    start..start + KEY_LEN
}

/// The key of a side of a letter's quote, in its page.
pub fn quote_key(side: usize, letter: usize) -> Range<usize> {
    key(side, letter)
}

/// The key of a side of a letter's levels.
pub fn first_key(side: usize, letter: usize) -> Range<usize> {
    key(2 + side, letter)
}

/// The four keys of a letter.
pub fn letter_keys(letter: usize) -> [Range<usize>; 4] {
    [0, 1, 2, 3].map(|row| key(row, letter))
}

/// Whether a letter is one that a line may have.
pub fn is_letter(letter: u8) -> bool {
    letter.is_ascii_uppercase() && letter != b'S'
}

/// The next expected number and the count of a line, as they stand.
pub fn record(book: &[u8], line_number: usize) -> (u32, u64) {
    let (expected, count) = book[moved(line_number)].split_at(4);
    (number(expected) as u32, number(count))
}

/// A big-endian number.
pub fn number(bytes: &[u8]) -> u64 {
    bytes.iter().fold(0, |n, &byte| n << 8 | u64::from(byte))
}

/// A number with its lowest byte first: those of quotes and levels.
pub fn low(bytes: &[u8]) -> u64 {
    bytes
        .iter()
        .rev()
        .fold(0, |n, &byte| n << 8 | u64::from(byte))
}

/// Whether memory is a book: its opening is sound and its length right.
pub fn is_book(memory: &[u8]) -> bool {
    memory.len() >= OPENING_LEN
        && memory.starts_with(MARK)
        && (1..=64).contains(&memory[N])
        && memory[COUNT] <= memory[N]
        && memory[DAY] <= 1
        && memory[FIRST_PAGE] == (OPENING_LEN as u32).to_be_bytes()
        && memory.len() == OPENING_LEN + PAGE_LEN * usize::from(memory[N])
}

/// Where the hint of a symbol stands in a book.
pub fn hint(symbol: &[u8]) -> usize {
    in_page(0, HINTS).start + (number(&symbol[..8]) % 251) as usize
}

/// The page of a symbol: the hinted one if it is listed and has the symbol, else the first that has it.
pub fn listed_page(book: &[u8], symbol: &[u8]) -> Option<usize> {
    let listed = 0..usize::from(book[COUNT]);
    let has = |&at: &usize| &book[in_page(at, SYMBOL)] == symbol;
    let hinted = symbol.get(..8).map(|_| usize::from(book[hint(symbol)]));
    hinted
        .filter(|at| listed.contains(at) && has(at))
        .or_else(|| listed.clone().find(has))
}
