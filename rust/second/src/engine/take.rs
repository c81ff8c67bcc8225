//! Taking a block: the line checks in their order, the messages one after another, the line's
//! record and the report.

use super::block::Block;
use super::message::{inquiry_or_test, Worked};
use super::mistake;
use super::update::Update;
use super::{Book, Line};
use crate::quote_book::Report;
use crate::terms::{code, number, ANSWER_LEN};

/// Differences up to this one are a gap, larger ones a duplicate.
const LARGEST_GAP: u32 = u32::MAX / 2;

/// A block that passed every check.
struct Admitted<'a> {
    block: Block<'a>,
    gap: u32,
    moves_line: bool,
}

impl<U: Update, const M: u8> Book<U, M> {
    /// Checks 9 and 21, then the line checks; a block that passes is worked.
    #[inline]
    pub(super) fn take(&mut self, line: u32, bytes: &[u8], answer: &mut [u8]) -> Report {
        if answer.len() < ANSWER_LEN {
            return refused(number::BUFFER_SHORT, 0, 0);
        }
        let at = match M {
            mistake::LINE_CUT => usize::from(line as u8),
            _ => line as usize,
        };
        let Some((record, letter)) = self.open_record(at) else {
            return refused(number::LINE_NOT_OPEN, 0, 0);
        };
        let admitted = admit::<M>(&record, letter, self.day_open, bytes);
        if matches!(admitted, Err(number::DUPLICATE)) {
            if let Some(number) = self.mistaken_for_duplicate(at) {
                return refused(number, record.expected, record.count);
            }
        }
        match admitted.and_then(|admitted| self.charge(at, &admitted).map(|()| admitted)) {
            Ok(admitted) => self.work_block(at, letter, &admitted, answer),
            Err(number) => refused(number, record.expected, record.count),
        }
    }

    /// Check 86. A block that does not move its line is free.
    #[inline]
    fn charge(&mut self, line: usize, admitted: &Admitted) -> Result<(), u8> {
        let free = !admitted.moves_line && M != mistake::FREE_CHARGED;
        match &mut self.allowance {
            Some(allowance) if !free => allowance.charge::<M>(line),
            _ => Ok(()),
        }
    }

    /// What two mistakes do with a duplicate.
    #[inline]
    fn mistaken_for_duplicate(&mut self, line: usize) -> Option<u8> {
        let allowance = self.allowance.as_mut()?;
        match M {
            mistake::DUPLICATE_CHARGED => {
                let _ = allowance.charge::<M>(line);
                None
            }
            mistake::USED_BEFORE_DUPLICATE => {
                let mut tried = *allowance;
                tried.charge::<M>(line).err()
            }
            _ => None,
        }
    }

    #[inline]
    fn open_record(&self, at: usize) -> Option<(Line, u8)> {
        let record = self.lines.get(at)?;
        Some((*record, record.letter?))
    }

    /// Works the messages one after another, then moves the line.
    #[inline]
    fn work_block(
        &mut self,
        line: usize,
        letter: u8,
        admitted: &Admitted,
        answer: &mut [u8],
    ) -> Report {
        let Admitted {
            block,
            gap,
            moves_line,
        } = admitted;
        let mut report = Report::default();
        for i in 0..block.count() {
            let message = block.message(i);
            let worked = self.work(letter, message);
            answer[4 * i..4 * i + 4].copy_from_slice(&[i as u8, worked.code, worked.flags, 0]);
            count_message::<M>(&mut report, message[1], worked);
        }
        if M == mistake::ANSWER_CLEARED {
            answer[4 * block.count()..].fill(0);
        }
        let record = &mut self.lines[line];
        if *moves_line {
            let old = record.expected;
            record.advance(block.sequence(), block.count());
            if M == mistake::EXPECTED_FROM_OLD {
                record.expected = old.wrapping_add(block.count() as u32);
            }
            if M == mistake::REJECTED_NOT_COUNTED {
                record.count = record.count.wrapping_sub(u64::from(report.rejected));
            }
        }
        report.number = if *gap == 0 { number::DONE } else { number::GAP };
        report.gap = *gap;
        report.expected = record.expected;
        report.count = record.count;
        report
    }
}

impl Line {
    /// Expected becomes the block's number + c, and the count rises by c.
    #[inline]
    fn advance(&mut self, sequence: u32, count: usize) {
        self.expected = sequence.wrapping_add(count as u32);
        self.count = self.count.wrapping_add(count as u64);
    }
}

/// A refused block reports its number and the line's record as it stands.
fn refused(number: u8, expected: u32, count: u64) -> Report {
    Report {
        number,
        expected,
        count,
        ..Report::default()
    }
}

/// Code 0 is accepted, Q K with 60 to 64 partly accepted, the rest rejected.
#[inline]
fn count_message<const M: u8>(report: &mut Report, message_type: u8, worked: Worked) {
    let partly = match message_type {
        b'M' => M == mistake::ODD_LOT_PARTLY,
        b'T' => M == mistake::FINRA_ODD_PARTLY,
        _ => message_type == b'K',
    };
    if worked.code == code::ACCEPTED || M == mistake::COUNTS_INVENTED {
        report.accepted += 1;
    } else if worked.code >= code::CLEAR_MARK && partly {
        report.partly += 1;
    } else {
        report.rejected += 1;
    }
}

/// Checks 30 to 34, then 20 and 35.
#[inline]
fn admit<'a, const M: u8>(
    record: &Line,
    letter: u8,
    day_open: bool,
    bytes: &'a [u8],
) -> Result<Admitted<'a>, u8> {
    let block = Block::read::<M>(bytes)?;
    if M == mistake::DAY_BEFORE_CONTROL && block.control_not_alone() && !day_open {
        return Err(number::BLOCK_WHILE_CLOSED);
    }
    let among_others = block.count() > 1;
    let has_status = (0..block.count()).any(|i| block.message(i)[0] == b'T');
    if block.control_not_alone() || M == mistake::STATUS_ALONE && among_others && has_status {
        return Err(number::CONTROL_NOT_ALONE);
    }
    let first = block.message(0);
    if skips_line::<M>(letter, first) {
        return Ok(Admitted {
            block,
            gap: 0,
            moves_line: M == mistake::INQUIRY_MOVES_LINE && first[1] == b'I',
        });
    }
    if !day_open {
        return Err(number::BLOCK_WHILE_CLOSED);
    }
    let gap = block.sequence().wrapping_sub(record.expected);
    let largest = match M {
        mistake::GAP_REFUSED => 0,
        mistake::HALF_RANGE_IS_GAP => LARGEST_GAP + 1,
        _ => LARGEST_GAP,
    };
    if gap > largest {
        return Err(number::DUPLICATE);
    }
    Ok(Admitted {
        block,
        gap,
        moves_line: true,
    })
}

/// Blocks whose message is C I, C T or C 5 skip checks 20 and 35 and do not move the line,
/// whatever code the message then gets. Check 34 has left them alone in their block.
#[inline]
fn skips_line<const M: u8>(letter: u8, first: &[u8]) -> bool {
    match [first[0], first[1]] {
        [b'C', b'T'] if M == mistake::INTEGRITY_CHECKED => false,
        [b'C', b'I' | b'T' | b'5'] => {
            M != mistake::SKIP_IF_ACCEPTED || inquiry_or_test(letter, first).is_ok()
        }
        _ => false,
    }
}
