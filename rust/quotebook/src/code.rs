//! The codes that a block's messages get.

use crate::table::table;

table! {
    /// What became of one message of a taken block.
    Code:
    0 Accepted "The message was accepted.";
    40 UnknownType "The category and type are unknown.";
    41 Letter "The letter is not the line's.";
    42 Length "The length is not its type's.";
    43 FixedByte "A byte that must be zero is not, or a test byte is wrong.";
    44 WrongLine "Close, Open, makers and odd lots of FINRA go on D's line only, other quotes on any other.";
    45 Symbol "The symbol is malformed or not listed.";
    46 Condition "The condition is not one that the type takes.";
    47 SizeWithoutPrice "A side has a size and no price.";
    48 Maker "The maker's name is not one to four letters A to Z, then spaces.";
    49 MakersFull "Sixteen makers stand already, and this is another.";
    60 ClearMark "The clear mark is not a space, B, S or X.";
    61 ItemCount "There are more than four odd bids or more than four odd offers.";
    62 ItemPrice "An odd item has price 0.";
    63 ItemShares "An odd item has a round lot of shares or more.";
    64 FifthLevel "An odd item would make a fifth level.";
    76 NotPrimary "The line's letter is not the symbol's primary letter, which alone may halt it.";
    77 Status "The trading status is not H (halted) or T (trading).";
}

impl Code {
    /// Whether an odd part was refused. Of a round lot quote (Q K) the round part is then in force;
    /// an odd lot quote (Q M, FINRA's Q T) is rejected.
    pub fn refuses_odd_part(self) -> bool {
        (Code::ClearMark..=Code::FifthLevel).contains(&self)
    }
}
