//! The numbers, codes, flags and limits of documents 01 and 02, as plain constants.

/// Numbers that a call answers or a block reports ("Operator, line and participant numbers").
pub mod number {
    /// The call was done.
    pub const DONE: u8 = 0;
    /// make: n is not 1 to 64, or the lent length is wrong.
    pub const MAKE: u8 = 2;
    /// The symbol to add is malformed.
    pub const SYMBOL_MALFORMED: u8 = 3;
    /// The symbol to add is already listed.
    pub const SYMBOL_LISTED: u8 = 4;
    /// n symbols stand.
    pub const BOOK_FULL: u8 = 5;
    /// The round lot is none of the five.
    pub const ROUND_LOT: u8 = 6;
    /// The line to open is above 63, or its letter is bad.
    pub const LINE_OR_LETTER: u8 = 7;
    /// The line to open is open already.
    pub const LINE_OPEN: u8 = 8;
    /// The answer buffer is under 180 bytes, or the publication buffer under 96.
    pub const BUFFER_SHORT: u8 = 9;
    /// The symbol to read or to ask about is malformed or not listed.
    pub const SYMBOL_UNKNOWN: u8 = 10;
    /// Start of Day while the day is open.
    pub const DAY_OPEN: u8 = 11;
    /// End of Day while the day is not open.
    pub const DAY_CLOSED: u8 = 12;
    /// A block while the day is not open.
    pub const BLOCK_WHILE_CLOSED: u8 = 20;
    /// The block's line is above 63 or not open.
    pub const LINE_NOT_OPEN: u8 = 21;
    /// The lent length is under 32, over 1,000 or not the block's field.
    pub const BLOCK_LENGTH: u8 = 30;
    /// The version is not 1.
    pub const VERSION: u8 = 31;
    /// The checksum is wrong.
    pub const CHECKSUM: u8 = 32;
    /// The message count is not 1 to 45, or an offset rule is broken.
    pub const OFFSETS: u8 = 33;
    /// A control message is not alone in its block.
    pub const CONTROL_NOT_ALONE: u8 = 34;
    /// The block is a duplicate.
    pub const DUPLICATE: u8 = 35;
    /// The block was taken behind a gap.
    pub const GAP: u8 = 70;
    /// To write: no messages, over 45, one under 20 bytes, lengths that do not add up to the bytes
    /// lent, or a block over 1,000.
    pub const WRITE_MESSAGES: u8 = 71;
    /// To write: a control message among others.
    pub const WRITE_CONTROL: u8 = 72;
    /// The output is too short for the block.
    pub const WRITE_SHORT: u8 = 73;
    /// The side mark of a query is not B or S.
    pub const SIDE: u8 = 74;
    /// The primary letter of the symbol to add is bad.
    pub const PRIMARY: u8 = 75;
    /// To convert: the block breaks a rule of source document 000.
    pub const VENUE_BLOCK: u8 = 78;
    /// To convert: a type, a letter or a condition without a place in our form, or a message too long
    /// for one block.
    pub const VENUE_UNPLACED: u8 = 79;
    /// The output is too short for the run.
    pub const CONVERT_SHORT: u8 = 80;
    /// The output is too short for the snapshot.
    pub const SNAPSHOT_SHORT: u8 = 81;
    /// The lots of an order are not 1 to 1,000,000.
    pub const LOTS: u8 = 82;
    /// The output of an order is under 325 bytes.
    pub const STEPS_SHORT: u8 = 83;
    /// The allowance to set is 0 or above 255.
    pub const ALLOWANCE: u8 = 84;
    /// Not 64 shares, or their sum is above the allowance.
    pub const SHARES: u8 = 85;
    /// A block whose line has its share used while the spare is used too.
    pub const USED_UP: u8 = 86;
}

/// Codes that a message gets.
pub mod code {
    /// Accepted.
    pub const ACCEPTED: u8 = 0;
    /// Unknown category and type.
    pub const UNKNOWN_TYPE: u8 = 40;
    /// The letter is not the line's.
    pub const LETTER: u8 = 41;
    /// The length is not its type's.
    pub const LENGTH: u8 = 42;
    /// A zero byte or a test byte is wrong.
    pub const FIXED_BYTE: u8 = 43;
    /// C C, C O, Q U or Q T off D's line; Q K or Q M on it.
    pub const WRONG_LINE: u8 = 44;
    /// The symbol is malformed or not listed.
    pub const SYMBOL: u8 = 45;
    /// The condition is not one that the type takes.
    pub const CONDITION: u8 = 46;
    /// Price 0 with a size on either side.
    pub const SIZE_WITHOUT_PRICE: u8 = 47;
    /// The maker's name is malformed.
    pub const MAKER: u8 = 48;
    /// A new maker while sixteen stand.
    pub const MAKERS_FULL: u8 = 49;
    /// The clear mark is none of the four.
    pub const CLEAR_MARK: u8 = 60;
    /// Either count of odd items is above 4.
    pub const ITEM_COUNT: u8 = 61;
    /// An odd item has price 0.
    pub const ITEM_PRICE: u8 = 62;
    /// An odd item has shares of a round lot or more.
    pub const ITEM_SHARES: u8 = 63;
    /// An odd item would make a fifth level.
    pub const FIFTH_LEVEL: u8 = 64;
    /// T S on a line whose letter is not the symbol's primary letter.
    pub const NOT_PRIMARY: u8 = 76;
    /// The status of T S is neither H nor T.
    pub const STATUS: u8 = 77;
}

/// n is 1 to 64.
pub const SYMBOLS_MAX: u32 = 64;
/// Lines are 0 to 63.
pub const LINES: usize = 64;
/// The length of a symbol.
pub const SYMBOL_LEN: usize = 11;
/// The longest snapshot of a symbol: 24 letters, two blocks.
pub const SNAPSHOT_MAX: usize = 1706;
/// The round lots that a symbol may have.
pub const ROUND_LOTS: [u32; 5] = [1, 10, 25, 50, 100];
/// The letters A to Z, S among them.
pub const LETTERS: usize = 26;
/// The letter of FINRA.
pub const FINRA: u8 = b'D';
/// The letter of the processor, which no line may have.
pub const PROCESSOR: u8 = b'S';
/// Makers that fit a symbol.
pub const MAKERS_MAX: usize = 16;
/// Levels that may stand for a symbol, letter and side.
pub const LEVELS_MAX: usize = 4;
/// The shortest block.
pub const BLOCK_MIN: usize = 32;
/// The longest block.
pub const BLOCK_MAX: usize = 1000;
/// The most messages in a block.
pub const MESSAGES_MAX: usize = 45;
/// The shortest message.
pub const MESSAGE_MIN: usize = 20;
/// The shortest answer buffer.
pub const ANSWER_LEN: usize = 180;
/// The length of a publication.
pub const PUBLICATION_LEN: usize = 96;
/// The length of one entry of a publication.
pub const ENTRY_LEN: usize = 16;
/// The most round lots of an order.
pub const LOTS_MAX: u32 = 1_000_000;
/// The length of a step of an order: letter 1, price 8, lots 4.
pub const STEP_LEN: usize = 13;
/// The shortest output of an order: 25 steps.
pub const STEPS_LEN: usize = 325;
