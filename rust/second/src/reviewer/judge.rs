//! The participant checks, as the reviewer makes them.

use super::account::{Account, Level};
use super::fields::{
    is_maker, is_symbol, maker_of, status_of, symbol_of, Kind, OddPart, Quote, Side,
};
use super::history::History;
use super::Listed;
use crate::terms::{code, FINRA, LEVELS_MAX, MAKERS_MAX};

/// "Partly accepted (Q K with 60 to 64)."
pub fn is_partly_accepted(message: &[u8], code: u8) -> bool {
    Kind::of(message) == Some(Kind::RoundLot) && (60..=64).contains(&code)
}

/// The code of a message on a line of this letter, behind this history.
pub fn code(letter: u8, message: &[u8], symbols: &[Listed], history: &impl History) -> u8 {
    let Some(kind) = Kind::of(message) else {
        return code::UNKNOWN_TYPE;
    };
    if message[2] != letter {
        return code::LETTER;
    }
    if !has_its_length(kind, message) {
        return code::LENGTH;
    }
    if !has_its_fixed_bytes(kind, message) {
        return code::FIXED_BYTE;
    }
    let belongs = match kind {
        Kind::FinraClose | Kind::FinraOpen | Kind::Maker | Kind::FinraOddLot => letter == FINRA,
        Kind::RoundLot | Kind::OddLot => letter != FINRA,
        Kind::Inquiry | Kind::Integrity | Kind::Test | Kind::Status => true,
    };
    if !belongs {
        return code::WRONG_LINE;
    }
    let Some(symbol) = symbol_of(message) else {
        return code::ACCEPTED;
    };
    let Some(listed) = symbols
        .iter()
        .find(|listed| is_symbol(symbol) && listed.symbol == symbol)
    else {
        return code::SYMBOL;
    };
    let account = history.account(symbol);
    match kind {
        Kind::RoundLot => match quote_fault(&Quote::of(message), b"ABCEFHNORUW") {
            Some(fault) => fault,
            None => odd_part_code(message, letter, listed.round_lot, &account),
        },
        Kind::Maker => match quote_fault(&Quote::of(message), b"RL") {
            Some(fault) => fault,
            None => maker_code(message, &account),
        },
        Kind::Status => status_code(message, letter, listed.primary),
        _ => odd_part_code(message, letter, listed.round_lot, &account),
    }
}

/// "42 length not its type's (Q K 60, Q M 36, plus 12 per item)"; Q T has "the layout of Q M".
fn has_its_length(kind: Kind, message: &[u8]) -> bool {
    let items = |at: usize| match message.get(at..at + 2) {
        Some(counts) => usize::from(counts[0]) + usize::from(counts[1]),
        None => 0,
    };
    let length = match kind {
        Kind::Inquiry | Kind::Integrity | Kind::FinraClose | Kind::FinraOpen => 20,
        Kind::Test => 20 + 95,
        Kind::RoundLot => 60 + 12 * items(57),
        Kind::OddLot | Kind::FinraOddLot => 36 + 12 * items(32),
        Kind::Maker => 60,
        Kind::Status => 32,
    };
    message.len() == length
}

/// "43 a zero or test byte wrong."
fn has_its_fixed_bytes(kind: Kind, message: &[u8]) -> bool {
    let zeros: &[usize] = match kind {
        Kind::RoundLot => &[3, 59],
        Kind::OddLot | Kind::FinraOddLot => &[3, 34, 35],
        _ => &[3],
    };
    let test_bytes: Vec<u8> = (0x20..=0x7E).collect();
    zeros.iter().all(|&at| message[at] == 0) && (kind != Kind::Test || message[20..] == test_bytes)
}

/// Checks 46 and 47.
fn quote_fault(quote: &Quote, conditions: &[u8]) -> Option<u8> {
    if !conditions.contains(&quote.condition) {
        return Some(code::CONDITION);
    }
    let is_fault = |side| quote.side(side).price == 0 && quote.side(side).size > 0;
    if is_fault(Side::Bid) || is_fault(Side::Offer) {
        return Some(code::SIZE_WITHOUT_PRICE);
    }
    None
}

/// Checks 48 and 49, the makers being those that the history gives. An empty quote asks for no cell.
fn maker_code(message: &[u8], account: &Account) -> u8 {
    let maker = maker_of(message);
    if !is_maker(maker) {
        return code::MAKER;
    }
    let is_new = account.maker(maker).is_none();
    if !Quote::of(message).is_empty() && is_new && account.makers().len() >= MAKERS_MAX {
        return code::MAKERS_FULL;
    }
    code::ACCEPTED
}

/// "76 line's letter not the primary, then 77 status."
fn status_code(message: &[u8], letter: u8, primary: u8) -> u8 {
    if letter != primary {
        return code::NOT_PRIMARY;
    }
    if !b"HT".contains(&status_of(message)) {
        return code::STATUS;
    }
    code::ACCEPTED
}

/// Checks 60 to 64, the levels being those that the history gives.
fn odd_part_code(message: &[u8], letter: u8, round_lot: u32, account: &Account) -> u8 {
    let Some(part) = OddPart::of(message) else {
        return code::ACCEPTED;
    };
    if !b" BSX".contains(&part.clear) {
        return code::CLEAR_MARK;
    }
    if part.bids > 4 || part.offers > 4 {
        return code::ITEM_COUNT;
    }
    for item in &part.items {
        if item.price == 0 {
            return code::ITEM_PRICE;
        }
        if item.shares >= round_lot {
            return code::ITEM_SHARES;
        }
    }
    for side in [Side::Bid, Side::Offer] {
        let standing = account.levels(letter, side);
        if makes_fifth_level(&part, side, standing) {
            return code::FIFTH_LEVEL;
        }
    }
    code::ACCEPTED
}

/// Follows the prices that stand on one side, item by item.
fn makes_fifth_level(part: &OddPart, side: Side, standing: &[Level]) -> bool {
    let mut prices: Vec<u64> = standing.iter().map(|level| level.price).collect();
    if part.clears(side) {
        prices.clear();
    }
    for item in part.items.iter().filter(|item| item.side == side) {
        if item.shares == 0 {
            prices.retain(|&price| price != item.price);
        } else if !prices.contains(&item.price) {
            if prices.len() == LEVELS_MAX {
                return true;
            }
            prices.push(item.price);
        }
    }
    false
}
