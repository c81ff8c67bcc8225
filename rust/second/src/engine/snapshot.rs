//! A symbol's snapshot (T-12), by the places that the lengths of its messages give: a block has room
//! for 13 letters beside R C and R F, or for 14 beside R C alone.

use super::candidate::{Candidate, Entry, Side};
use super::directory::Symbol;
use super::page::Page;
use super::{as_symbol, mistake, Book, Update};
use crate::quote_book::SnapshotSize;
use crate::terms::{number, FINRA, PROCESSOR};

const HEADER_LEN: usize = 24;
const VERSION: u8 = 11;
const CONSOLIDATED_LEN: usize = 102;
const PARTICIPANT_LEN: usize = 62;
const FINRA_LEN: usize = 68;
const LETTERS_ALONE: usize = 13;
const LETTERS_FIRST: usize = 14;
const SHORTEST: usize = HEADER_LEN + CONSOLIDATED_LEN + FINRA_LEN;
const LONGEST: usize = 2 * HEADER_LEN + CONSOLIDATED_LEN + 24 * PARTICIPANT_LEN + FINRA_LEN;

impl<U: Update, const M: u8> Book<U, M> {
    /// Check 10, then blocks and bytes.
    pub(super) fn tell_snapshot(&self, symbol: &[u8]) -> SnapshotSize {
        match self.page_of(symbol) {
            Some((_, page)) => told::<M>(page),
            None => SnapshotSize::refused(number::SYMBOL_UNKNOWN),
        }
    }

    /// Checks 10, 81.
    pub(super) fn write_snapshot(&self, symbol: &[u8], output: &mut [u8]) -> SnapshotSize {
        if M == mistake::ROOM_BEFORE_SYMBOL && output.len() < SHORTEST {
            return SnapshotSize::refused(number::SNAPSHOT_SHORT);
        }
        let Some((symbol, page)) = self.page_of(symbol) else {
            return SnapshotSize::refused(number::SYMBOL_UNKNOWN);
        };
        let size = told::<M>(page);
        let short = match M {
            mistake::ROOM_FOR_ANY_SNAPSHOT => output.len() < LONGEST,
            mistake::ROOM_JUST_ENOUGH_REFUSED => output.len() <= size.bytes,
            _ => output.len() < size.bytes,
        };
        let written = written::<M>(page, symbol);
        let filled = written.len().min(output.len());
        if !short || M == mistake::SHORT_OUTPUT_FILLED {
            output[..filled].copy_from_slice(&written[..filled]);
        }
        if short && M == mistake::SHORT_SIZE_TOLD {
            return SnapshotSize {
                number: number::SNAPSHOT_SHORT,
                ..size
            };
        }
        if short {
            return SnapshotSize::refused(number::SNAPSHOT_SHORT);
        }
        if M == mistake::OUTPUT_CLEARED {
            output[filled..].fill(0);
        }
        size
    }

    fn page_of<'a>(&self, symbol: &'a [u8]) -> Option<(&'a Symbol, &Page)> {
        let symbol = as_symbol(symbol)?;
        let page = self.directory.find(symbol)?;
        Some((symbol, &self.pages[page]))
    }
}

/// The blocks and bytes of a page's snapshot.
fn told<const M: u8>(page: &Page) -> SnapshotSize {
    let letters = shown::<M>(page).len();
    let blocks = if letters <= LETTERS_ALONE { 1 } else { 2 };
    let headers = match M {
        mistake::ONE_HEADER_TOLD => 1,
        _ => blocks,
    };
    SnapshotSize {
        number: number::DONE,
        blocks: if M == mistake::ONE_BLOCK_TOLD {
            1
        } else {
            blocks
        },
        bytes: headers * HEADER_LEN
            + CONSOLIDATED_LEN
            + letters * PARTICIPANT_LEN
            + finra_len::<M>(page),
    }
}

/// R F is there "even with no maker".
fn finra_len<const M: u8>(page: &Page) -> usize {
    let stands = page.entries[2..4].iter().any(|&entry| entry != Entry::NONE);
    if M == mistake::FINRA_LEFT_OUT && !stands {
        return 0;
    }
    FINRA_LEN
}

/// The letters of the snapshot, from A on.
fn shown<const M: u8>(page: &Page) -> Vec<u8> {
    let letters = (b'A'..=b'Z').filter(|&letter| is_shown::<M>(page, letter));
    if M == mistake::LETTERS_FROM_Z {
        return letters.rev().collect();
    }
    letters.collect()
}

/// "Each letter with a round quote since Start of Day." D's quotes are its makers'.
fn is_shown<const M: u8>(page: &Page, letter: u8) -> bool {
    let quotes = page.sides.each_ref().map(|side| side.quote(letter));
    let counts = |side: usize| page.sides[side].counting_quote(letter).stands();
    match M {
        mistake::D_IN_SNAPSHOT if letter == FINRA => counts(0) || counts(1),
        _ if letter == FINRA || letter == PROCESSOR => false,
        mistake::HALTED_NOT_SHOWN if page.halted => false,
        mistake::ONLY_COUNTING_SHOWN => counts(0) || counts(1),
        mistake::EMPTY_NOT_SHOWN => {
            is_quoted(&quotes[0]) && quotes.iter().any(|side| side.rank > 0 || side.size > 0)
        }
        _ => is_quoted(&quotes[0]),
    }
}

/// A letter that has quoted has its letter in the name, also if both sides are 0 and 0.
fn is_quoted(quote: &Candidate) -> bool {
    quote.name != Candidate::NONE.name
}

/// The snapshot of a symbol.
fn written<const M: u8>(page: &Page, symbol: &Symbol) -> Vec<u8> {
    let shown = shown::<M>(page);
    let consolidated = consolidated::<M>(page, symbol);
    let mut finra = finra::<M>(page, symbol);
    finra.truncate(finra_len::<M>(page));
    let participants = |letters: &[u8]| -> Vec<u8> {
        let messages = letters
            .iter()
            .map(|&letter| participant::<M>(page, symbol, letter));
        messages.flatten().collect()
    };
    if shown.len() <= LETTERS_ALONE {
        let count = 1 + shown.len() + finra.len() / FINRA_LEN;
        let letters = participants(&shown);
        let messages = match M {
            mistake::CONSOLIDATED_BEHIND => [letters, consolidated, finra],
            _ => [consolidated, letters, finra],
        };
        return block(1, 4, count, &messages.concat());
    }
    let (first, second) = shown.split_at(LETTERS_FIRST);
    let sequence = match M {
        mistake::BLOCKS_NUMBERED => 2,
        mistake::SECOND_NUMBERED_15 => 15,
        _ => 16,
    };
    let flag = match M {
        mistake::LAST_IS_INTERMEDIATE => 2,
        _ => 3,
    };
    let count = second.len() + finra.len() / FINRA_LEN;
    let front = [consolidated, participants(first)].concat();
    let behind = [participants(second), finra].concat();
    [
        block(1, 1, 1 + LETTERS_FIRST, &front),
        block(sequence, flag, count, &behind),
    ]
    .concat()
}

/// A block's header, then its messages: their lengths are even, and so is the block's.
fn block(sequence: u32, flag: u8, count: usize, messages: &[u8]) -> Vec<u8> {
    let len = HEADER_LEN + messages.len();
    let mut block = vec![0; len];
    block[0] = VERSION;
    block[1..3].copy_from_slice(&(len as u16).to_be_bytes());
    block[3..7].copy_from_slice(&sequence.to_be_bytes());
    block[7] = count as u8;
    block[8] = flag;
    block[HEADER_LEN..].copy_from_slice(messages);
    let sum: u32 = block.iter().map(|&byte| u32::from(byte)).sum();
    block[22..24].copy_from_slice(&(sum as u16).to_be_bytes());
    block
}

/// Length, category R, type, participant and symbol; the rest of the message is spaces.
fn message(len: usize, kind: u8, participant: u8, symbol: &Symbol) -> Vec<u8> {
    let mut message = vec![b' '; len];
    message[..2].copy_from_slice(&(len as u16).to_be_bytes());
    message[2..5].copy_from_slice(&[b'R', kind, participant]);
    message[5..16].copy_from_slice(symbol);
    message
}

fn consolidated<const M: u8>(page: &Page, symbol: &Symbol) -> Vec<u8> {
    let mut message = message(CONSOLIDATED_LEN, b'C', PROCESSOR, symbol);
    message[17..58].fill(0);
    for (side, at) in [(0, 58), (1, 76)] {
        let entry = page.entries[side].bytes();
        message[at..at + 2].copy_from_slice(&entry[..2]);
        message[at + 2..at + 14].copy_from_slice(&entry[4..]);
        if M == mistake::MAKERS_IN_CONSOLIDATED {
            let maker = page.entries[2 + side].bytes();
            message[at + 14..at + 18].copy_from_slice(&maker[..4]);
        }
    }
    if M == mistake::HALT_TOLD && page.halted {
        message[98] = b'H';
    }
    if M == mistake::PRIMARY_TOLD {
        message[95] = page.primary;
    }
    message
}

fn participant<const M: u8>(page: &Page, symbol: &Symbol, letter: u8) -> Vec<u8> {
    let mut message = message(PARTICIPANT_LEN, b'P', letter, symbol);
    let quotes = page.sides.each_ref().map(|side| side.quote(letter));
    let [_, condition, ..] = quotes[0].name.to_be_bytes();
    message[16] = condition;
    for side in Side::BOTH {
        let quote = &quotes[side as usize];
        let at = match (side, M == mistake::SIDES_EXCHANGED) {
            (Side::Bid, false) | (Side::Offer, true) => 17,
            _ => 29,
        };
        let price = match M {
            mistake::INDICATION_LOST if quote.size == 0 => 0,
            _ => side.price(quote.rank),
        };
        let size = match M {
            mistake::SIZES_IN_SHARES => quote.size.wrapping_mul(page.round_lot),
            _ => quote.size,
        };
        message[at..at + 8].copy_from_slice(&price.to_be_bytes());
        message[at + 8..at + 12].copy_from_slice(&size.to_be_bytes());
    }
    message[45..61].fill(0);
    message
}

fn finra<const M: u8>(page: &Page, symbol: &Symbol) -> Vec<u8> {
    let mut message = message(FINRA_LEN, b'F', FINRA, symbol);
    for (side, at) in [(2, 16), (3, 33)] {
        let entry = page.entries[side].bytes();
        message[at + 1..at + 13].copy_from_slice(&entry[4..]);
        message[at + 13..at + 17].copy_from_slice(&entry[..4]);
        if M == mistake::FINRA_CONDITION_TOLD && entry[0] != b' ' {
            message[at] = b'R';
        }
    }
    message[51..67].fill(0);
    message
}
