//! Messages: the participant checks in their order, and what an accepted message changes.

use super::bytes::{bytes_at, u64_at};
use super::candidate::odd_name;
use super::mistake;
use super::odd_part::{items_len, Levels, OddPart};
use super::page::Page;
use super::quote::{maker_takes, round_lot_takes, Quote};
use super::update::{Touched, Update};
use super::Book;
use crate::terms::{code, FINRA, MESSAGE_MIN};

const ROUND_LOT_LEN: usize = 60;
const ODD_LOT_LEN: usize = 36;
const MAKER_LEN: usize = 60;
const TEST_LEN: usize = MESSAGE_MIN + 95;
const STATUS_LEN: usize = 32;

/// How a message was worked.
#[derive(Clone, Copy)]
pub struct Worked {
    pub code: u8,
    pub flags: u8,
}

impl Worked {
    fn accepted(flags: u8) -> Worked {
        Worked {
            code: code::ACCEPTED,
            flags,
        }
    }
}

#[inline]
fn check(right: bool, code: u8) -> Result<(), u8> {
    if right {
        Ok(())
    } else {
        Err(code)
    }
}

/// Checks 41 to 43 of C I, C T and C 5, which go on any line and change nothing.
pub fn inquiry_or_test(letter: u8, message: &[u8]) -> Result<Worked, u8> {
    check(message[2] == letter, code::LETTER)?;
    let is_test = message[1] == b'5';
    let len = if is_test { TEST_LEN } else { MESSAGE_MIN };
    check(message.len() == len, code::LENGTH)?;
    check(message[3] == 0, code::FIXED_BYTE)?;
    let test_bytes = message[MESSAGE_MIN..].iter().copied();
    check(!is_test || test_bytes.eq(0x20..=0x7E), code::FIXED_BYTE)?;
    Ok(Worked::accepted(0))
}

impl<U: Update, const M: u8> Book<U, M> {
    /// Works one message of a line's letter. A rejected message changes nothing.
    #[inline]
    pub(super) fn work(&mut self, letter: u8, message: &[u8]) -> Worked {
        if M == mistake::LETTER_BEFORE_TYPE && message[2] != letter {
            return Worked {
                code: code::LETTER,
                flags: 0,
            };
        }
        let worked = match [message[0], message[1]] {
            [b'Q', b'K'] => self.round_lot(letter, message),
            [b'Q', b'T'] if M == mistake::FINRA_ODD_UNKNOWN => Err(code::UNKNOWN_TYPE),
            [b'Q', b'M' | b'T'] => self.odd_lot(letter, message),
            [b'Q', b'U'] => self.maker(letter, message),
            [b'T', b'S'] => self.status(letter, message),
            [b'C', b'C'] => self.finra_day(letter, message, b'L'),
            [b'C', b'O'] => self.finra_day(letter, message, b'R'),
            [b'C', b'I' | b'T' | b'5'] => inquiry_or_test(letter, message),
            _ => Err(code::UNKNOWN_TYPE),
        };
        worked.unwrap_or_else(|code| Worked { code, flags: 0 })
    }

    /// Q K: the round part replaces the letter's quote; the odd part, if refused, does nothing.
    fn round_lot(&mut self, letter: u8, message: &[u8]) -> Result<Worked, u8> {
        check(message[2] == letter, code::LETTER)?;
        let (fixed, items) = message
            .split_first_chunk::<ROUND_LOT_LEN>()
            .ok_or(code::LENGTH)?;
        check(items.len() == items_len(fixed[57], fixed[58]), code::LENGTH)?;
        check(fixed[3] == 0 && fixed[59] == 0, code::FIXED_BYTE)?;
        if M == mistake::REFERENCE_READ {
            check(u64_at(fixed, 12) == 0, code::FIXED_BYTE)?;
        }
        check(letter != FINRA, code::WRONG_LINE)?;
        let page = self.listed(bytes_at(fixed, 20))?;
        let quote = Quote::read(fixed);
        check(round_lot_takes(quote.condition), code::CONDITION)?;
        quote.check_sizes::<M>()?;
        let part = OddPart {
            clear: fixed[56],
            bids: fixed[57],
            offers: fixed[58],
            items,
            name: odd_name(letter),
            time: quote.time,
        };

        let before = page.entries;
        let odd_part = match part.is_idle() {
            true => Ok(()),
            false => take_odd_part::<M>(page, letter, &part),
        };
        let code = odd_part.err().unwrap_or(code::ACCEPTED);
        let lost = M == mistake::ROUND_PART_LOST && code != code::ACCEPTED
            || M == mistake::EMPTY_QUOTE_IGNORED && quote.is_empty::<M>()
            || M == mistake::HALT_DROPS_QUOTES && page.halted;
        if !lost {
            page.set_quote::<M>(letter, &quote);
        }
        if M == mistake::EMPTY_QUOTE_CLEARS && quote.is_empty::<M>() {
            page.set_levels::<M>(letter, [Levels::EMPTY; 2]);
        }
        U::update::<M>(page, Touched::Quote(letter));
        let flags = page.changes::<M>(&before);
        Ok(Worked { code, flags })
    }

    /// Q M, and on D's line Q T: an odd part alone; if it is refused the message is rejected.
    fn odd_lot(&mut self, letter: u8, message: &[u8]) -> Result<Worked, u8> {
        check(message[2] == letter, code::LETTER)?;
        let (fixed, items) = message
            .split_first_chunk::<ODD_LOT_LEN>()
            .ok_or(code::LENGTH)?;
        check(items.len() == items_len(fixed[32], fixed[33]), code::LENGTH)?;
        let zeros = [fixed[3], fixed[34], fixed[35]];
        check(zeros == [0; 3], code::FIXED_BYTE)?;
        let belongs = match fixed[1] {
            b'T' => letter == FINRA || M == mistake::FINRA_ODD_ANYWHERE,
            _ => letter != FINRA || M == mistake::ODD_LOT_ON_D,
        };
        check(belongs, code::WRONG_LINE)?;
        let page = self.listed(bytes_at(fixed, 20))?;
        let part = OddPart {
            clear: fixed[31],
            bids: fixed[32],
            offers: fixed[33],
            items,
            name: odd_name(letter),
            time: u64_at(fixed, 4),
        };

        let before = page.entries;
        take_odd_part::<M>(page, letter, &part)?;
        U::update::<M>(page, Touched::Levels(letter));
        Ok(Worked::accepted(page.changes::<M>(&before)))
    }

    /// Q U: a FINRA maker's quote replaces its last one or frees its cell. The empty quote of a maker
    /// without a cell changes no maker, however many stand (T-03).
    fn maker(&mut self, letter: u8, message: &[u8]) -> Result<Worked, u8> {
        check(message[2] == letter, code::LETTER)?;
        let fixed: &[u8; MAKER_LEN] = message.try_into().map_err(|_| code::LENGTH)?;
        check(fixed[3] == 0, code::FIXED_BYTE)?;
        check(letter == FINRA, code::WRONG_LINE)?;
        let page = self.listed(bytes_at(fixed, 20))?;
        let quote = Quote::read(fixed);
        check(maker_takes(quote.condition), code::CONDITION)?;
        quote.check_sizes::<M>()?;
        let maker = bytes_at(fixed, 56);
        check(is_maker(maker), code::MAKER)?;
        let name = u32::from_be_bytes(maker);

        let standing = page.maker_cell(name);
        let before = page.entries;
        let touched = if quote.is_empty::<M>() {
            if M == mistake::EMPTY_MAKER_REFUSED && standing.is_none() {
                page.free_cell::<M>().ok_or(code::MAKERS_FULL)?;
            }
            match standing {
                Some(cell) => {
                    page.free_maker::<M>(cell);
                    Touched::Maker(cell, name)
                }
                None => Touched::Makers,
            }
        } else {
            let cell = standing
                .or_else(|| page.free_cell::<M>())
                .ok_or(code::MAKERS_FULL)?;
            page.set_maker::<M>(cell, name, &quote);
            Touched::Maker(cell, name)
        };
        if M == mistake::EMPTY_MAKER_CLEARS && quote.is_empty::<M>() {
            page.set_levels::<M>(FINRA, [Levels::EMPTY; 2]);
        }
        U::update::<M>(page, touched);
        Ok(Worked::accepted(page.changes::<M>(&before)))
    }

    /// T S: halts a symbol, or lets it trade, on a line of its primary letter. While it is halted
    /// its entries are none; quotes go on being stored.
    fn status(&mut self, letter: u8, message: &[u8]) -> Result<Worked, u8> {
        check(message[2] == letter, code::LETTER)?;
        let fixed: &[u8; STATUS_LEN] = message.try_into().map_err(|_| code::LENGTH)?;
        check(fixed[3] == 0, code::FIXED_BYTE)?;
        if M == mistake::STATUS_OFF_D {
            check(letter != FINRA, code::WRONG_LINE)?;
        }
        let page = self.listed(bytes_at(fixed, 20))?;
        let known = matches!(fixed[31], b'H' | b'T') || M == mistake::STATUS_UNCHECKED;
        if M == mistake::STATUS_BEFORE_PRIMARY {
            check(known, code::STATUS)?;
        }
        let in_place = letter == page.primary || M == mistake::STATUS_ANYWHERE;
        check(in_place, code::NOT_PRIMARY)?;
        check(known, code::STATUS)?;

        let (before, time) = (page.entries, u64_at(fixed, 4));
        if M == mistake::LATEST_STATUS && time < page.status_time {
            return Ok(Worked::accepted(0));
        }
        page.status_time = time;
        page.halted = fixed[31] == b'H';
        let waits = match M {
            mistake::HALT_WAITS => page.halted,
            mistake::TRADING_WAITS => !page.halted,
            _ => false,
        };
        if !waits {
            U::update::<M>(page, Touched::Status);
        }
        let flags = page.changes::<M>(&before);
        if M == mistake::HALT_OF_A_LETTER {
            for page in &mut self.pages {
                if page.primary == letter {
                    page.halted = fixed[31] == b'H';
                    U::update::<M>(page, Touched::Status);
                }
            }
        }
        Ok(Worked::accepted(flags))
    }

    /// C C and C O: every page's makers get condition L or R. A flag is set if that entry changed
    /// in any symbol.
    fn finra_day(&mut self, letter: u8, message: &[u8], condition: u8) -> Result<Worked, u8> {
        check(message[2] == letter, code::LETTER)?;
        check(message.len() == MESSAGE_MIN, code::LENGTH)?;
        check(message[3] == 0, code::FIXED_BYTE)?;
        check(letter == FINRA, code::WRONG_LINE)?;
        if M == mistake::OPEN_IGNORED && condition == b'R' {
            return Ok(Worked::accepted(0));
        }
        let mut flags = 0;
        for (i, page) in self.pages.iter_mut().enumerate() {
            let before = page.entries;
            if M == mistake::CLOSE_PASSES_HALTED && page.halted {
                continue;
            }
            page.set_conditions::<M>(condition, u64_at(message, 4));
            if M == mistake::CLOSE_CLEARS_LEVELS {
                page.set_levels::<M>(FINRA, [Levels::EMPTY; 2]);
            }
            if M != mistake::CLOSE_IN_ONE_PAGE || i == 0 {
                U::update::<M>(page, Touched::Makers);
            }
            if M != mistake::FLAGS_OF_ONE_PAGE || i == 0 {
                flags |= page.changes::<M>(&before);
            }
        }
        Ok(Worked::accepted(flags))
    }

    /// Check 45. Only well-formed symbols are listed.
    #[inline]
    fn listed(&mut self, symbol: [u8; 11]) -> Result<&mut Page, u8> {
        let at = self.directory.find(&symbol).ok_or(code::SYMBOL)?;
        Ok(&mut self.pages[at])
    }
}

/// Takes an odd part into the page, or gives the code that refuses it: its clear and every item
/// then do nothing.
#[inline]
fn take_odd_part<const M: u8>(page: &mut Page, letter: u8, part: &OddPart) -> Result<(), u8> {
    let standing = page.levels(letter);
    match part.judge::<M>(page.round_lot, standing) {
        Ok(levels) => {
            page.set_levels::<M>(letter, levels);
            Ok(())
        }
        Err(code) => {
            if M == mistake::CLEAR_STAYS {
                let mut cleared = standing;
                part.clear(&mut cleared);
                page.set_levels::<M>(letter, cleared);
            }
            Err(code)
        }
    }
}

/// A to Z, at least one, then spaces.
#[inline]
fn is_maker(name: [u8; 4]) -> bool {
    let text = name.iter().take_while(|byte| byte.is_ascii_uppercase());
    let len = text.count();
    len > 0 && name[len..].iter().all(|&byte| byte == b' ')
}
