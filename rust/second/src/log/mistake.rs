//! Wrong rules that can be switched on in the reading of a log, to show that the comparison finds them.

use crate::engine::mistake::mistakes;

/// No mistake.
pub const NONE: u8 = 0;

mistakes! {
    1 CHECK_NOT_READ "A record whose check is wrong is carried out.";
    2 SHORT_LENGTH_CUT "A length under 17 is told as a cut.";
    3 FEW_BYTES_DAMAGED "Under 17 bytes at the log's end are told as damage.";
    4 BEYOND_END_DAMAGED "A length beyond the log's end is told as damage.";
    5 UNKNOWN_PASSED "A record of another kind is passed over.";
    6 NO_CALL_PASSED "A record whose arguments are too short is passed over.";
    7 LONGER_TAKEN "Arguments that are longer than their numbers are taken where no bytes follow.";
    8 STOP_BEHIND "The place that is told is behind the damaged record.";
    9 ROOM_BEFORE_RECORD "93 is asked before the record is read.";
    10 ROOM_OF_3600 "93 is told only with under 3,600 bytes left.";
    11 JUST_ENOUGH_REFUSED "93 is told with exactly 3,696 bytes left.";
    12 BYTES_FIRST "The lent bytes stand before the numbers.";
    13 LENGTHS_OF_32_BITS "Lengths of buffers are cut to 32 bits.";
    14 REFUSED_UNANSWERED "A refused call has no answer.";
    15 PUBLICATION_AS_OUTPUT "The length of a publication is told as that of an output.";
    16 END_CUT "The log's end is told as a cut.";
    17 QUERIES_PASSED "Queries are passed over.";
    18 CHECK_BY_BYTES "The check takes each byte as a number.";
    19 CHECK_OF_ARGUMENTS "The check leaves out the record's length.";
    20 RUN_NOT_TOLD "The bytes of a run are told in the length of the output alone.";
    21 UNFILLED_TOLD "The answers of a refused block are as many as its messages.";
    22 FIRST_DAMAGE_PASSED "Reading goes on behind a damaged record.";
    23 HEAD_MARK_NOT_READ "A head of another mark is taken.";
    24 HEAD_VERSION_NOT_READ "A head of another version is taken.";
    25 HEAD_CHECK_NOT_READ "A head whose check is wrong is taken.";
    26 REQUESTS_READ "A head of other requests is refused.";
    27 MAKE_NOT_DONE "Restoring carries out the records alone, on the book as it is.";
    28 FROM_IGNORED "Reading begins behind the head, whatever the place.";
}
