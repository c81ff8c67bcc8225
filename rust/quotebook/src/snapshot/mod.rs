//! Snapshots: a symbol's state for subscribers that recover from a failure, as blocks of the CQS
//! Pillar Snapshot Specification.
//!
//! [`Book::snapshot`](crate::Book::snapshot) writes them, [`blocks`] cuts them into packets, and
//! [`Snapshot::from_bytes`] is the subscriber's side.
//!
//! A field that the book does not tell is blank: a halted symbol looks like one that nobody leads,
//! and times, price bands and the primary market are left out.

mod layout;

use std::error::Error;
use std::fmt::{self, Display, Formatter};

use crate::message::Symbol;
use crate::number::Number;
use crate::price::Price;
use crate::publication::Entry;

/// The most bytes that a snapshot can have: 24 letters, two blocks.
pub const SNAPSHOT_MAX: usize = 1706;

/// How many blocks and bytes a snapshot has; 0 and 0 after a refusal.
#[derive(Clone, Copy, PartialEq, Eq, Debug)]
pub struct SnapshotSize {
    /// [`Number::Done`], or why the call was refused.
    pub number: Number,
    /// Its blocks, 1 or 2.
    pub blocks: usize,
    /// The bytes of all of them.
    pub bytes: usize,
}

impl SnapshotSize {
    pub(crate) fn from_fields(number: Number, [blocks, bytes]: [u64; 2]) -> SnapshotSize {
        SnapshotSize {
            number,
            blocks: blocks as usize,
            bytes: bytes as usize,
        }
    }
}

/// A snapshot's blocks, each to be sent as one packet. They end where no whole block follows.
pub fn blocks(snapshot: &[u8]) -> impl Iterator<Item = &[u8]> {
    let mut rest = snapshot;
    std::iter::from_fn(move || {
        let (block, behind) = layout::split_block(rest)?;
        rest = behind;
        Some(block)
    })
}

/// A symbol's state, as a snapshot tells it.
#[derive(Clone, PartialEq, Eq, Debug)]
pub struct Snapshot {
    /// The symbol.
    pub symbol: Symbol,
    /// The highest bid over all letters.
    pub national_bid: Option<Entry>,
    /// The lowest offer over all letters.
    pub national_offer: Option<Entry>,
    /// The highest bid over FINRA's makers.
    pub finra_bid: Option<Entry>,
    /// The lowest offer over FINRA's makers.
    pub finra_offer: Option<Entry>,
    /// The latest quote of each letter but D that quoted since Start of Day.
    pub letters: Vec<LetterQuote>,
}

/// A letter's latest quote. A price with size 0 is an indication.
#[derive(Clone, Copy, PartialEq, Eq, Debug)]
pub struct LetterQuote {
    /// The letter.
    pub letter: u8,
    /// The condition, on which it depends which side counts.
    pub condition: u8,
    /// The bid.
    pub bid: Price,
    /// Round lots that are bid for.
    pub bid_size: u32,
    /// The offer.
    pub offer: Price,
    /// Round lots that are offered.
    pub offer_size: u32,
}

/// Letter, condition, bid and offer.
impl Display for LetterQuote {
    fn fmt(&self, f: &mut Formatter) -> fmt::Result {
        let (letter, condition) = (self.letter.escape_ascii(), self.condition.escape_ascii());
        let LetterQuote {
            bid,
            bid_size,
            offer,
            offer_size,
            ..
        } = self;
        write!(
            f,
            "{letter} {condition} {bid} x {bid_size}, {offer} x {offer_size}"
        )
    }
}

impl Snapshot {
    /// Decodes the blocks of one snapshot, laid end to end as they were sent.
    ///
    /// The three kinds of message may come in any order, FINRA's may be missing, and a block may end
    /// with a pad byte; fields that this library leaves blank are not looked at.
    pub fn from_bytes(bytes: &[u8]) -> Result<Snapshot, SnapshotError> {
        layout::snapshot(bytes)
    }
}

/// A line for each entry, then one for each letter.
impl Display for Snapshot {
    fn fmt(&self, f: &mut Formatter) -> fmt::Result {
        let symbol = self.symbol.as_ref().trim_ascii_end();
        writeln!(f, "{}", symbol.escape_ascii())?;
        let entries = [
            ("national bid", self.national_bid),
            ("national offer", self.national_offer),
            ("FINRA bid", self.finra_bid),
            ("FINRA offer", self.finra_offer),
        ];
        for (what, entry) in entries {
            match entry {
                Some(entry) => writeln!(f, "{what:14} {entry}")?,
                None => writeln!(f, "{what:14} none")?,
            }
        }
        self.letters
            .iter()
            .try_for_each(|letter| writeln!(f, "{letter}"))
    }
}

/// Why bytes are no snapshot.
#[derive(Clone, Copy, PartialEq, Eq, Debug)]
pub enum SnapshotError {
    /// A block is cut, odd, or over 1,000 bytes.
    BlockSize,
    /// The version is not 11.
    Version,
    /// The checksum is not the sum of the block's other bytes.
    Checksum,
    /// The block's number or delivery flag is not that of the block due here.
    OutOfOrder,
    /// The messages do not end with their block.
    MessageLength,
    /// A message that no snapshot of a symbol has, or has once only.
    MessageType,
    /// A message of another symbol.
    OtherSymbol,
    /// No Consolidated message.
    NotConsolidated,
}

/// One plain sentence.
impl Display for SnapshotError {
    fn fmt(&self, f: &mut Formatter) -> fmt::Result {
        f.pad(match self {
            SnapshotError::BlockSize => "A block is cut, odd, or over 1,000 bytes.",
            SnapshotError::Version => "The version is not 11.",
            SnapshotError::Checksum => "The checksum is not the sum of the block's other bytes.",
            SnapshotError::OutOfOrder => {
                "The block's number or delivery flag is not that of the block due here."
            }
            SnapshotError::MessageLength => "The messages do not end with their block.",
            SnapshotError::MessageType => {
                "A message that no snapshot of a symbol has, or has once only."
            }
            SnapshotError::OtherSymbol => "A message of another symbol.",
            SnapshotError::NotConsolidated => "There is no Consolidated message.",
        })
    }
}

impl Error for SnapshotError {}
