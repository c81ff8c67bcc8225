//! Wrong rules that can be switched on in the writer, to show that the comparison finds them.

use crate::engine::mistake::mistakes;

/// No mistake.
pub const NONE: u8 = 0;

mistakes! {
    1 SHORT_BEFORE_CONTROL "73 is asked before 72.";
    2 CONTROL_FIRST "72 is asked before 71.";
    3 SHORT_FIRST "73 is asked before 71.";
    4 CONTROL_WRITTEN "A control message among others is written.";
    5 KNOWN_CONTROL "72 is asked of the five known control types only.";
    6 FIRST_ASKED_FOR_CONTROL "72 is asked of the first message only.";
    7 LAST_NOT_ASKED_FOR_CONTROL "72 is not asked of the last message.";
    8 LONE_CONTROL_REFUSED "A control message alone is refused with 72.";
    9 SUM_OF_16_BITS "Lengths are added up in 16 bits.";
    10 SUM_OF_32_BITS "Lengths are added up in 32 bits.";
    11 LESS_TAKEN "Lengths that add up to less than the bytes lent are taken.";
    12 MORE_TAKEN "Lengths that add up to more than the bytes lent are taken.";
    13 NINETEEN_TAKEN "A message of 19 bytes is taken.";
    14 LAST_OF_ANY_LENGTH "The last message may be under 20 bytes.";
    15 EMPTY_WRITTEN "A block of no messages is written.";
    16 FORTY_FIVE_REFUSED "45 messages are refused.";
    17 LONG_BLOCK "A block of 1,001 bytes is written.";
    18 FULL_BLOCK_REFUSED "A block of 1,000 bytes is refused.";
    19 ROOM_FOR_ANY "73 is claimed for every output under 1,000 bytes.";
    20 JUST_FITTING_REFUSED "73 is claimed for an output that the block fills.";
    21 LENGTH_TOLD "The needed length is told after 73.";
    22 SHORT_FILLED "After 73 the output is filled as far as it goes.";
    23 BEHIND_CLEARED "The output is zeroed behind the block.";
    24 OLD_CHECKSUM_COUNTED "The checksum counts what stood in its two bytes.";
    25 WRAP_REFUSED "Sequence numbers that wrap within the block are refused.";
}
