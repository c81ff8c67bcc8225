//! What the block call tells of a block and of each of its messages.

use std::fmt::{self, Display, Formatter};

use crate::code::Code;
use crate::lent::ANSWER_LEN;
use crate::number::{Number, Refusal};

/// What the block call reports. A refused block has no gap and no messages.
#[derive(Clone, Copy, PartialEq, Eq, Debug)]
pub struct Report {
    /// [`Number::Done`] or [`Number::Gap`] for a taken block, else why it was refused.
    pub number: Number,
    /// How many sequence numbers are missing before the block.
    pub gap: u32,
    /// The line's next expected sequence number.
    pub expected: u32,
    /// The line's count of messages.
    pub count: u64,
    /// Messages that were accepted.
    pub accepted: u32,
    /// Round lot quotes whose round part was accepted and whose odd part was refused.
    pub partly: u32,
    /// All other messages of the block.
    pub rejected: u32,
}

impl Report {
    /// Of the seven numbers, gap, expected and the three counts have 32 bits.
    pub(crate) fn from_fields(number: Number, fields: [u64; 7]) -> Report {
        let [_, gap, expected, count, accepted, partly, rejected] = fields;
        Report {
            number,
            gap: gap as u32,
            expected: expected as u32,
            count,
            accepted: accepted as u32,
            partly: partly as u32,
            rejected: rejected as u32,
        }
    }

    /// How many messages the block had, 0 if it was refused.
    pub fn messages(&self) -> usize {
        (self.accepted + self.partly + self.rejected) as usize
    }

    pub(crate) fn refusal(&self) -> Option<Refusal> {
        self.number.is_refusal().then_some(Refusal {
            number: self.number,
            expected: self.expected,
            count: self.count,
        })
    }
}

/// A taken block: its report, and an answer for each of its messages.
#[derive(Clone, Debug)]
pub struct Taken {
    /// What the block call reported.
    pub report: Report,
    bytes: [u8; ANSWER_LEN],
}

impl Taken {
    /// What a block call reported and filled, if the block was taken; else why it was not.
    pub fn new(report: Report, answer: [u8; ANSWER_LEN]) -> Result<Taken, Refusal> {
        match report.refusal() {
            None => Ok(Taken {
                report,
                bytes: answer,
            }),
            Some(refusal) => Err(refusal),
        }
    }

    /// The messages' answers, in their order.
    pub fn answers(&self) -> impl ExactSizeIterator<Item = Answer> + '_ {
        let (answers, _) = self.bytes.as_chunks();
        answers[..self.report.messages()]
            .iter()
            .map(|&bytes| Answer::from_bytes(bytes))
    }
}

/// What became of one message.
#[derive(Clone, Copy, PartialEq, Eq, Debug)]
pub struct Answer {
    /// The message's place in its block, from 0.
    pub index: u8,
    /// Its code.
    pub code: Code,
    /// Which published entries it changed.
    pub changes: Changes,
}

impl Answer {
    /// An answer from the four bytes of a filled answer buffer: index, code, change flags and 0.
    pub fn from_bytes([index, code, flags, _]: [u8; 4]) -> Answer {
        Answer {
            index,
            code: Code::try_from(code).expect("a filled answer has a code of document 01"),
            changes: Changes(flags),
        }
    }
}

/// Index, sentence of the code, and what changed.
impl Display for Answer {
    fn fmt(&self, f: &mut Formatter) -> fmt::Result {
        write!(f, "{}: {}", self.index, self.code)?;
        if self.changes.any() {
            write!(f, " Changed: {}.", self.changes)?;
        }
        Ok(())
    }
}

/// The change flags of one message: each is set exactly if that published entry of its symbol changed.
/// FINRA Open and Close name no symbol: a flag of theirs says that the entry of some symbol changed.
#[derive(Clone, Copy, PartialEq, Eq, Debug, Default)]
pub struct Changes(u8);

impl Changes {
    const NAMES: [&str; 6] = [
        "national bid",
        "national offer",
        "FINRA bid",
        "FINRA offer",
        "odd bid",
        "odd offer",
    ];

    /// The flags as document 01 numbers them: 1, 2, 4, 8, 16, 32.
    pub fn bits(self) -> u8 {
        self.0
    }

    /// Whether any entry changed.
    pub fn any(self) -> bool {
        self.0 != 0
    }

    /// Whether the national bid changed.
    pub fn national_bid(self) -> bool {
        self.has(0)
    }

    /// Whether the national offer changed.
    pub fn national_offer(self) -> bool {
        self.has(1)
    }

    /// Whether the FINRA bid changed.
    pub fn finra_bid(self) -> bool {
        self.has(2)
    }

    /// Whether the FINRA offer changed.
    pub fn finra_offer(self) -> bool {
        self.has(3)
    }

    /// Whether the odd bid changed.
    pub fn odd_bid(self) -> bool {
        self.has(4)
    }

    /// Whether the odd offer changed.
    pub fn odd_offer(self) -> bool {
        self.has(5)
    }

    fn has(self, entry: usize) -> bool {
        self.0 & 1 << entry != 0
    }
}

/// The changed entries' names, with commas.
impl Display for Changes {
    fn fmt(&self, f: &mut Formatter) -> fmt::Result {
        let changed = (0..6).filter(|&entry| self.has(entry));
        for (i, entry) in changed.enumerate() {
            let comma = if i > 0 { ", " } else { "" };
            write!(f, "{comma}{}", Changes::NAMES[entry])?;
        }
        Ok(())
    }
}
