//! The numbers that a call answers, and the refusal that carries one.

use std::error::Error;
use std::fmt::{self, Display, Formatter};

use crate::table::table;

table! {
    /// What a call answers: 0 and 70 are its doing what it was asked, all others refuse it.
    Number:
    0 Done "The call was done.";
    1 NoBook "The memory is not a book: its opening or its length is wrong.";
    2 Make "A book has room for 1 to 64 symbols, in memory of exactly that length.";
    3 SymbolMalformed "The symbol is not A to Z, then printable bytes, then spaces, eleven bytes in all.";
    4 SymbolListed "The symbol is already listed.";
    5 BookFull "As many symbols are listed as the book has room for.";
    6 RoundLot "The round lot is not 1, 10, 25, 50 or 100 shares.";
    7 LineOrLetter "The line is above 63, or its letter is not A to Z without S.";
    8 LineOpen "The line is already open.";
    9 BufferShort "The answer buffer is under 180 bytes, or the publication buffer under 96.";
    10 SymbolUnknown "The symbol is malformed or not listed.";
    11 DayOpen "The day is already open.";
    12 DayNotOpen "The day is not open.";
    20 BlockWhileClosed "The block came while the day was not open.";
    21 LineNotOpen "The block's line is above 63 or not open.";
    30 BlockLength "The block's length is under 32, over 1,000 or not what its length field says.";
    31 Version "The block's version is not 1.";
    32 Checksum "The block's checksum is wrong.";
    33 Offsets "The block's message count is not 1 to 45, or its offsets break a rule.";
    34 ControlNotAlone "A control message is not alone in its block.";
    35 Duplicate "The block is a duplicate: its sequence number lies behind the expected one.";
    70 Gap "The block was taken, and sequence numbers before it are missing.";
    71 WriteMessages "No messages, over 45, one under 20 bytes, lengths that do not add up, or a block over 1,000.";
    72 WriteControl "A control message among others: it has to be alone in its block.";
    73 WriteShort "The output is shorter than the block to write.";
    74 Side "The side mark is not B or S.";
    75 Primary "The primary letter is not A to Z, or it is S.";
    78 VenueBlock "The venue's block breaks a rule of its form.";
    79 VenueUnplaced "A message of the venue's block has no place here: its type, letter, condition or length.";
    80 ConvertShort "The output is shorter than the run to write.";
    81 SnapshotShort "The output is shorter than the snapshot.";
    82 Lots "The lots are not 1 to 1,000,000.";
    83 StepsShort "The output is under 325 bytes.";
    84 Allowance "The blocks for a tick are not 1 to 255.";
    85 Shares "There are not 64 shares, or their sum is above the blocks for a tick.";
    86 UsedUp "The share of the block's line and the spare are used in this tick.";
    90 LogHead "The log does not begin with a head.";
    91 LogCut "The log ends inside a record: it was cut, or the record's length is damaged.";
    92 LogDamaged "A record of the log is damaged: its check, its length, its kind or its arguments.";
    93 LogRoom "The output may be too short for one more answer.";
}

impl Number {
    /// Whether the call was refused and has changed nothing.
    pub fn is_refusal(self) -> bool {
        !matches!(self, Number::Done | Number::Gap)
    }
}

/// A refused call. It has changed nothing.
#[derive(Clone, Copy, PartialEq, Eq, Debug)]
pub struct Refusal {
    /// Why the call was refused.
    pub number: Number,
    /// For a block: the line's next expected sequence number as it stands. 0 after numbers 1, 9 and
    /// 21, and for every other call.
    pub expected: u32,
    /// For a block: the line's count of messages as it stands, else 0.
    pub count: u64,
}

/// The number and its sentence.
impl Display for Refusal {
    fn fmt(&self, f: &mut Formatter) -> fmt::Result {
        write!(f, "{} ({})", self.number, u8::from(self.number))
    }
}

impl Error for Refusal {}

impl Number {
    /// The answer of any call but the block call.
    pub(crate) fn result(self) -> Result<(), Refusal> {
        if !self.is_refusal() {
            return Ok(());
        }
        Err(Refusal {
            number: self,
            expected: 0,
            count: 0,
        })
    }
}
