//! The kinds of parts after which the entries of a page are worked out from its quotes, and of sides
//! that keep a time.

use second::Call;

use super::layout::{in_page, listed_page, number, page, ENTRIES, N};
use super::reading::{is_empty_quote, Reading};

pub const PARTS: [&str; 14] = [
    "Q K without odd lots",
    "Q K with odd lots",
    "Q K, partly accepted",
    "Q M",
    "Q M, a space and no items",
    "Q T",
    "Q T, a space and no items",
    "Q U",
    "Q U, empty, of an unknown maker",
    "C C",
    "C O",
    "T S, halted",
    "T S, trading",
    "a quote of a halted symbol",
];

/// A query whose answer is not what the entry that the page keeps says.
pub const ASKED: &str = "a query";

/// An order whose first step is not at the entry that the page keeps.
pub const ORDERED: &str = "an order";

/// That an order's first step, or having none, is not what the kept entry says.
pub fn beside_the_entry(book: &[u8], call: &Call, steps: &[u8]) -> Option<&'static str> {
    let Call::TryOrder { symbol, side, .. } = call else {
        return None;
    };
    let entries = &book[in_page(listed_page(book, symbol)?, ENTRIES)];
    let (bid, offer) = entries[..32].split_at(16);
    let entry = if *side == b'B' { offer } else { bid };
    let same = match steps.get(..9) {
        Some(first) => first[0] == entry[0] && first[1..] == entry[4..12],
        None => entry[0] == b' ',
    };
    (!same).then_some(ORDERED)
}

/// That a query was answered otherwise than the kept entry says.
pub fn against_the_entry(book: &[u8], call: &Call, yes: bool) -> Option<&'static str> {
    let Call::IsProtected {
        symbol,
        side,
        price,
    } = call
    else {
        return None;
    };
    let entries = &book[in_page(listed_page(book, symbol)?, ENTRIES)];
    let (bid, offer) = entries[..32].split_at(16);
    let bids = *side == b'B';
    let entry = if bids { bid } else { offer };
    let kept = number(&entry[4..12]);
    let reached = kept == *price || bids == (kept > *price);
    let says = entry != *b"    \0\0\0\0\0\0\0\0\0\0\0\0" && reached;
    (says != yes).then_some(ASKED)
}

/// The kind of a message by its code, if the entries of a page that it concerns were not those of
/// the page's quotes.
pub fn on_wrong_entries(book: &[u8], message: &[u8], code: u8) -> Option<&'static str> {
    let pages = match &message[..2] {
        b"CC" | b"CO" => 0..usize::from(book[N]),
        _ => {
            let named = listed_page(book, message.get(20..31)?)?;
            named..named + 1
        }
    };
    let wrong = pages.into_iter().find_map(|at| {
        let reading = Reading::of(&book[page(at)]);
        (book[in_page(at, ENTRIES)] != reading.entries()).then_some(reading)
    })?;
    kind(&wrong, message, code)
}

/// What keeps a time that stands in a page of any bytes (T-02).
pub const RESENT: [&str; 6] = [
    "a letter's bid",
    "a letter's offer",
    "a letter's bid over condition 0",
    "a letter's offer over condition 0",
    "a maker's bid",
    "a maker's offer",
];

/// Which of these a message by its code is.
pub fn resent(book: &[u8], message: &[u8], code: u8) -> Vec<&'static str> {
    let taken = code == 0 || &message[..2] == b"QK" && code >= 60;
    let named = || listed_page(book, message.get(20..31)?);
    let Some(at) = named().filter(|_| taken) else {
        return Vec::new();
    };
    let Some((kept, condition)) = Reading::of(&book[page(at)]).resent(message) else {
        return Vec::new();
    };
    let first = match (&message[..2], condition) {
        (b"QU", _) => 4,
        (_, 0) => 2,
        _ => 0,
    };
    let sides = kept.into_iter().enumerate().filter(|(_, kept)| *kept);
    sides.map(|(side, _)| RESENT[first + side]).collect()
}

fn kind(reading: &Reading, message: &[u8], code: u8) -> Option<&'static str> {
    let idle = |clear: usize| message[clear..clear + 3] == *b" \0\0";
    let unknown = || !reading.has_maker([message[56], message[57], message[58], message[59]]);
    let named = matches!(&message[..2], b"QK" | b"QM" | b"QT" | b"QU");
    let at = match (&message[..2], code) {
        _ if named && reading.is_halted() && code == 0 => 13,
        (b"TS", 0) if message[31] == b'H' => 11,
        (b"TS", 0) => 12,
        (b"QK", 0) if idle(56) => 0,
        (b"QK", 0) => 1,
        (b"QK", 60..=64) => 2,
        (b"QM", 0) if idle(31) => 4,
        (b"QM", 0) => 3,
        (b"QT", 0) if idle(31) => 6,
        (b"QT", 0) => 5,
        (b"QU", 0) if is_empty_quote(message) && unknown() => 8,
        (b"QU", 0) => 7,
        (b"CC", 0) => 9,
        (b"CO", 0) => 10,
        _ => return None,
    };
    Some(PARTS[at])
}
