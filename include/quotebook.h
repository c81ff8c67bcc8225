/* quotebook.h: the quote book, a proved engine that turns exchange quotes into one book.
 *
 * Link with target/staticlib/libquotebook.a (`make lib` writes it). The library allocates nothing, keeps no state of its own and needs
 * nothing of the system but memset. A book is bytes that the caller lends to every call.
 *
 * Duties of the caller, which no call can check:
 *   - every pointer is valid for the length passed with it. With length 0 nothing is read or written: null will do;
 *   - the buffers of one call do not overlap: book, symbol, messages, lengths, block, answer, report, publication, output,
 *     steps, shares and log lie apart;
 *   - nobody else reads or writes the book during a call that changes it. Several readers at once are fine.
 * Everything else is checked: any bytes of any length may be lent as book, symbol, block, log or messages, and any numbers as lengths. A
 * refused call changes no byte of the book and fills no buffer, but for the report, which says why.
 *
 * The result of a call is a number, QB_CHECK_DONE (0) or the first check that refused; of a block also QB_CHECK_GAP (70), which is taken.
 * qb_taken tells, qb_sentence says what a number means, and docs/CHECKS.md what to do about it. docs/WIRE.md has the bytes of blocks,
 * messages and publications.
 *
 * Threads: a book is for one thread at a time while it is fed. examples/c/readers.c shows how others read what it publishes.
 */
#ifndef QUOTEBOOK_H
#define QUOTEBOOK_H

#include <stddef.h>
#include <stdint.h>

#ifdef __cplusplus
extern "C" {
#endif

/* The version of this header, 10000 * major + 100 * minor + patch. That of the linked library is qb_version(): compare the two where they
 * are installed apart. What may change from version to version is in docs/CHANGES.md. */
#define QB_LIBRARY_VERSION 10301

/* Sizes in bytes. A book for n symbols has QB_OPENING_LEN + n * QB_PAGE_LEN. */
enum {
    QB_OPENING_LEN = 976,
    QB_PAGE_LEN = 6723,
    QB_SYMBOL_LEN = 11,
    QB_BLOCK_MAX = 1000,     /* no block is longer */
    QB_RUN_MAX = 3600,       /* no run of blocks that a venue's block is converted to is longer */
    QB_SNAPSHOT_MAX = 1706,  /* enough for any symbol's snapshot: 24 letters, two blocks */
    QB_ANSWER_LEN = 180,     /* at least: 4 bytes for each of up to 45 messages */
    QB_PUBLICATION_LEN = 96, /* at least: six entries */
    QB_ENTRY_LEN = 16,
    QB_STEPS_LEN = 325, /* at least: 25 steps */
    QB_STEP_LEN = 13,
    QB_SHARES_LEN = 64,       /* a share for each line */
    QB_LOG_HEAD_LEN = 16,     /* of a log of calls; its first record stands behind */
    QB_LOG_ANSWER_MOST = 3696 /* no answer of a call that is replayed is longer */
};

/* Numbers that calls answer: the check that refused, or 0, or 70. */
enum {
    QB_CHECK_DONE = 0,
    QB_CHECK_NO_BOOK = 1,             /* every call on a book but make: the bytes or their length are not a book's */
    QB_CHECK_MAKE = 2,                /* make: n is not 1 to 64, or the length is not that of a book for n */
    QB_CHECK_SYMBOL_MALFORMED = 3,    /* add: the symbol is malformed */
    QB_CHECK_SYMBOL_LISTED = 4,       /* add: the symbol is already listed */
    QB_CHECK_BOOK_FULL = 5,           /* add: n symbols stand */
    QB_CHECK_ROUND_LOT = 6,           /* add: the round lot is not 1, 10, 25, 50 or 100 */
    QB_CHECK_LINE_OR_LETTER = 7,      /* open: the line is above 63, or the letter is not A to Z without S */
    QB_CHECK_LINE_OPEN = 8,           /* open: the line is already open */
    QB_CHECK_BUFFER_SHORT = 9,        /* block: the answer buffer is under 180 bytes; read: the publication buffer under 96 */
    QB_CHECK_SYMBOL_UNKNOWN = 10,     /* read, is protected, snapshot, try: the symbol is malformed or not listed */
    QB_CHECK_DAY_OPEN = 11,           /* start: the day is already open */
    QB_CHECK_DAY_NOT_OPEN = 12,       /* end: the day is not open */
    QB_CHECK_BLOCK_WHILE_CLOSED = 20, /* block: the day is not open */
    QB_CHECK_LINE_NOT_OPEN = 21,      /* block: the line is above 63 or not open */
    QB_CHECK_BLOCK_LENGTH = 30,       /* block: the length is under 32, over 1,000 or not what the block's field says */
    QB_CHECK_VERSION = 31,            /* block: the version is not 1 */
    QB_CHECK_CHECKSUM = 32,           /* block: the checksum is wrong */
    QB_CHECK_OFFSETS = 33,            /* block: the message count is not 1 to 45, or an offset rule is broken */
    QB_CHECK_CONTROL_NOT_ALONE = 34,  /* block: a control message is not alone */
    QB_CHECK_DUPLICATE = 35,          /* block: its sequence number lies behind the expected one */
    QB_CHECK_GAP = 70,                /* block: a warning; it was taken, and sequence numbers before it are missing */
    QB_CHECK_WRITE_MESSAGES = 71,     /* write: no messages, over 45, one under 20 bytes, lengths that do not add up, or a block over 1,000 */
    QB_CHECK_WRITE_CONTROL = 72,      /* write: a control message among others */
    QB_CHECK_WRITE_SHORT = 73,        /* write: the output is shorter than the block */
    QB_CHECK_SIDE = 74,               /* is protected, try: the side mark is not B or S */
    QB_CHECK_PRIMARY = 75,            /* add: the primary letter is not A to Z without S */
    QB_CHECK_VENUE_BLOCK = 78,        /* convert: the block breaks a rule of the venues' form */
    QB_CHECK_VENUE_UNPLACED = 79,     /* convert: a type, letter or condition without a place here, or a message too long for one block */
    QB_CHECK_CONVERT_SHORT = 80,      /* convert: the output is shorter than the run */
    QB_CHECK_SNAPSHOT_SHORT = 81,     /* snapshot: the output is shorter than the snapshot */
    QB_CHECK_LOTS = 82,               /* try: the lots are not 1 to 1,000,000 */
    QB_CHECK_STEPS_SHORT = 83,        /* try: the output is under 325 bytes */
    QB_CHECK_ALLOWANCE = 84,          /* set allowance: the blocks for a tick are not 1 to 255 */
    QB_CHECK_SHARES = 85,             /* set allowance: not 64 shares, or their sum is above the blocks for a tick */
    QB_CHECK_USED_UP = 86,            /* block: its line's share and the spare are used in this tick */
    QB_CHECK_LOG_HEAD = 90,           /* log head, restore: the log does not begin with a head */
    QB_CHECK_LOG_CUT = 91,            /* replay, restore: the log ends inside a record */
    QB_CHECK_LOG_DAMAGED = 92,        /* replay, restore: a record is damaged, or is no call */
    QB_CHECK_LOG_ROOM = 93            /* replay, restore: the output may be too short for one more answer */
};

/* Codes of messages, in the answer buffer. A Q K with 60 to 64 is partly accepted: its quote is in force, its odd lots did nothing. */
enum {
    QB_CODE_ACCEPTED = 0,
    QB_CODE_UNKNOWN_TYPE = 40,       /* unknown category and type */
    QB_CODE_LETTER = 41,             /* the letter is not the line's */
    QB_CODE_LENGTH = 42,             /* the length is not its type's */
    QB_CODE_FIXED_BYTE = 43,         /* a zero or test byte is wrong */
    QB_CODE_WRONG_LINE = 44,         /* C C, C O, Q U, Q T off D's line; Q K, Q M on it */
    QB_CODE_SYMBOL = 45,             /* the symbol is malformed or not listed */
    QB_CODE_CONDITION = 46,          /* the condition is not one that the type takes */
    QB_CODE_SIZE_WITHOUT_PRICE = 47, /* price 0 with a size, on either side */
    QB_CODE_MAKER = 48,              /* the maker is malformed */
    QB_CODE_MAKERS_FULL = 49,        /* a new maker while sixteen stand; its empty quote is accepted */
    QB_CODE_CLEAR_MARK = 60,         /* the clear mark is not space, B, S or X */
    QB_CODE_ITEM_COUNT = 61,         /* more than four odd bids or odd offers */
    QB_CODE_ITEM_PRICE = 62,         /* an odd lot with price 0 */
    QB_CODE_ITEM_SHARES = 63,        /* an odd lot of a round lot or more */
    QB_CODE_FIFTH_LEVEL = 64,        /* an odd lot would make a fifth level */
    QB_CODE_NOT_PRIMARY = 76,        /* T S: the line's letter is not the symbol's primary letter */
    QB_CODE_STATUS = 77              /* T S: the status is not H or T */
};

/* Change flags of a message, in the answer buffer: the entries of its symbol that it changed. FINRA Open and Close (C O, C C) name no symbol:
 * a flag of theirs says that the entry of some symbol changed, so read them all. */
enum {
    QB_FLAG_NATIONAL_BID = 1,
    QB_FLAG_NATIONAL_OFFER = 2,
    QB_FLAG_FINRA_BID = 4,
    QB_FLAG_FINRA_OFFER = 8,
    QB_FLAG_ODD_BID = 16,
    QB_FLAG_ODD_OFFER = 32
};

/* Entries of a publication: entry k stands at k * QB_ENTRY_LEN, and its flag is 1 << k. */
enum {
    QB_ENTRY_NATIONAL_BID = 0,
    QB_ENTRY_NATIONAL_OFFER = 1,
    QB_ENTRY_FINRA_BID = 2,
    QB_ENTRY_FINRA_OFFER = 3,
    QB_ENTRY_ODD_BID = 4,
    QB_ENTRY_ODD_OFFER = 5,
    QB_ENTRIES = 6
};

/* Places in an entry. Numbers are big-endian. */
enum {
    QB_ENTRY_AT_NAME = 0,      /* 4 bytes: a maker; or a letter and what stands behind it */
    QB_ENTRY_AT_CONDITION = 1, /* of a national entry */
    QB_ENTRY_AT_REASON = 2,    /* of a national entry: P, S, T, L or a space */
    QB_ENTRY_AT_PRICE = 4,     /* 8 bytes, six implied decimals */
    QB_ENTRY_AT_SIZE = 12      /* 4 bytes: round lots, of odd lots shares */
};

/* Places in the report of a block. */
enum {
    QB_REPORT_NUMBER = 0,
    QB_REPORT_GAP = 1,      /* how many sequence numbers are missing before the block */
    QB_REPORT_EXPECTED = 2, /* the line's next expected sequence number */
    QB_REPORT_COUNT = 3,    /* the line's messages since Start of Day */
    QB_REPORT_ACCEPTED = 4,
    QB_REPORT_PARTLY = 5,
    QB_REPORT_REJECTED = 6,
    QB_REPORT_LEN = 7
};

/* Places in the report of a query. */
enum {
    QB_PROTECTED_NUMBER = 0,
    QB_PROTECTED_YES = 1,    /* 1 for yes, 0 for no */
    QB_PROTECTED_LOOKED = 2, /* letters looked at: the place of the first that answers yes, A being 1, or 26 for no */
    QB_PROTECTED_LEN = 3
};

/* Places in the size of a snapshot. */
enum {
    QB_SIZE_BLOCKS = 0,
    QB_SIZE_BYTES = 1,
    QB_SIZE_LEN = 2
};

/* Places in the report of an order that is tried. */
enum {
    QB_TRIED_NUMBER = 0,
    QB_TRIED_STEPS = 1,    /* how many steps it has, 25 at most */
    QB_TRIED_UNFILLED = 2, /* the lots that nobody shows */
    QB_TRIED_LEN = 3
};

/* Places in a step. */
enum {
    QB_STEP_LETTER = 0, /* the exchange; D is FINRA */
    QB_STEP_PRICE = 1,  /* 8 bytes, six implied decimals */
    QB_STEP_LOTS = 9    /* 4 bytes, the round lots taken */
};

/* Places in the report of a log's head. */
enum {
    QB_HEAD_NUMBER = 0,
    QB_HEAD_N = 1,        /* the symbols that the book was made for */
    QB_HEAD_REQUESTS = 2, /* the requests that the calls follow, bit 0 for T-01 */
    QB_HEAD_LEN = 3
};

/* Places in the report of a replay. */
enum {
    QB_REPLAYED_NUMBER = 0,
    QB_REPLAYED_PLACE = 1,   /* where it stopped in the log: behind the last record that was carried out */
    QB_REPLAYED_WRITTEN = 2, /* bytes of answers */
    QB_REPLAYED_LEN = 3
};

/* The library's version, as QB_LIBRARY_VERSION is the header's. */
uint32_t qb_version(void);

/* Bytes of a book for n symbols; 0 if n is not 1 to 64. */
uint64_t qb_book_len(uint32_t n);

/* Makes a book for n symbols in len bytes of any contents: no symbols, no lines, a closed day, no allowance. Answers 0, 2.
 * A book that is in use is no exception: with its own n it is made anew, whether its day is open or not, and all that it held is gone. */
uint8_t qb_make(uint8_t *book, size_t len, uint32_t n);

/* Lists a symbol of 11 bytes (A to Z, then printable bytes, then spaces) with its round lot in shares and its primary letter, A to Z
 * without S: lines of that letter, and no others, may halt the symbol (T S). It starts as trading. Answers 0, 1, 3, 6, 75, 4, 5.
 * The last parameter is new (it came with trading halts): code that calls the function of five parameters has to be compiled anew. */
uint8_t qb_add_symbol(uint8_t *book, size_t len, const uint8_t *symbol, size_t symbol_len, uint32_t round_lot, uint8_t primary);

/* Opens line 0 to 63 for an exchange's letter; D is FINRA. It expects sequence number 1. Answers 0, 1, 7, 8. */
uint8_t qb_open_line(uint8_t *book, size_t len, uint32_t line, uint8_t letter);

/* Start of Day: forgets all quotes, ends every halt, sets every line to sequence number 1, opens the day. An allowance and what is
 * charged of it stay. Answers 0, 1, 11. */
uint8_t qb_start_day(uint8_t *book, size_t len);

/* End of Day: closes the day and keeps the quotes. Answers 0, 1, 12. */
uint8_t qb_end_day(uint8_t *book, size_t len);

/* Sets an allowance of blocks for each tick, 1 to 255, with a guaranteed share for each line, and starts a tick. Answers 0, 1, 84, 85.
 * shares: QB_SHARES_LEN bytes, that of line i at i; what the blocks have above all shares is the spare, for any line. */
uint8_t qb_set_allowance(uint8_t *book, size_t len, uint32_t blocks, const uint8_t *shares, size_t shares_len);

/* Starts the next tick. Without an allowance nothing changes. Answers 0, 1. */
uint8_t qb_tick(uint8_t *book, size_t len);

/* Takes a block on a line. Answers 0 or 70 (taken), 1, 9, 21, 30, 31, 32, 33, 34, 20, 35, 86.
 * report: number, gap, next expected, count, accepted, partly accepted, rejected; always filled.
 * answer: of a taken block, for message i the bytes 4i to 4i + 3 are i, its code, its change flags and 0; the bytes behind stay. */
uint8_t qb_take_block(uint8_t *book, size_t len, uint32_t line, const uint8_t *block, size_t block_len,
                      uint8_t *answer, size_t answer_len, uint64_t report[7]);

/* Copies a symbol's six best entries: national bid, offer, FINRA bid, offer, odd-lot bid, offer; while it is halted six times none.
 * Answers 0, 1, 9, 10.
 * Each entry is a name of 4 bytes (national: letter, condition, reason, a space; FINRA: maker; odd lots: letter, three spaces), a price of
 * 8 bytes with six implied decimals, and a size of 4 (round lots; of odd lots, shares), big-endian. None is four spaces and zeros.
 * The reason is what put the national leader ahead of the second best: P price, S size, T time, L letter; a space without a second best. */
uint8_t qb_read(const uint8_t *book, size_t len, const uint8_t *symbol, size_t symbol_len,
                uint8_t *publication, size_t publication_len);

/* Does a national candidate bid price or more (side B), or offer price or less (side S)? Answers 0, 1, 10, 74.
 * A candidate is an exchange's quote that counts, or for D the FINRA best; the price has six implied decimals, and 0 is a price. A
 * halted symbol has none: no, with 26.
 * report: number, 1 for yes or 0 for no, letters looked at (A is 1; 26 for no); always filled, 0 behind the number after a refusal.
 * The book isn't changed; no day need be open. */
uint8_t qb_is_protected(const uint8_t *book, size_t len, const uint8_t *symbol, size_t symbol_len,
                        uint8_t side, uint64_t price, uint64_t report[3]);

/* Tells how many bytes qb_convert writes for a venue's own block: source document 000, 4.3 to 4.7, without the block separator.
 * Answers 0, 1, 78, 79. report: number, bytes needed (0 after a refusal), QB_RUN_MAX at most; always filled. */
uint8_t qb_convert_len(const uint8_t *book, size_t len, const uint8_t *block, size_t block_len, uint64_t report[2]);

/* Writes a venue's own block as a run of blocks for qb_take_block, end to end, each with its length in its bytes 2-3. Round-lot sizes in
 * shares become round lots of the symbols that the book lists, the rest dropped; a symbol that is not listed goes through undivided.
 * The first block has the venue block's number, each next one the number that follows. Answers 0, 1, 78, 79, 80. The book isn't changed.
 * output: the first report[1] bytes are filled; the bytes behind stay.
 * report: number, bytes written (0 after a refusal); always filled. */
uint8_t qb_convert(const uint8_t *book, size_t len, const uint8_t *block, size_t block_len,
                   uint8_t *output, size_t output_len, uint64_t report[2]);

/* Tells how many blocks and bytes a symbol's snapshot has now, without writing it. Answers 0, 1, 10.
 * size: blocks, bytes; always filled, with 0 and 0 after a refusal. The book isn't changed; no day need be open. */
uint8_t qb_snapshot_len(const uint8_t *book, size_t len, const uint8_t *symbol, size_t symbol_len, uint64_t size[2]);

/* Writes a symbol's snapshot for subscribers that recover from a failure: its national and FINRA best and each letter's latest quote, as
 * blocks of the CQS Pillar Snapshot Specification (source document 002), end to end; a block's length is in its bytes 1 and 2. Answers 0, 1,
 * 10, 81.
 * output: QB_SNAPSHOT_MAX bytes always suffice; the bytes behind those written stay.
 * size: blocks, bytes written; always filled, with 0 and 0 after a refusal. The book isn't changed; no day need be open. */
uint8_t qb_snapshot(const uint8_t *book, size_t len, const uint8_t *symbol, size_t symbol_len,
                    uint8_t *output, size_t output_len, uint64_t size[2]);

/* Plays an order of 1 to 1,000,000 round lots: side B buys at the offers, S sells at the bids. Each step takes from the best exchange not
 * yet used, in the order of the national best, as many lots as are wanted and shown; D stands with its FINRA best. A halted symbol
 * fills nothing. Answers 0, 1, 10, 74, 82, 83. No other division of as many lots over the same quotes costs less to buy or brings more to sell.
 * steps: QB_STEPS_LEN bytes at least, 13 filled for each step (letter 1, price 8, lots 4, big-endian); the bytes behind stay.
 * report: number, steps, lots not found; always filled, 0 behind the number after a refusal.
 * The book isn't changed; no day need be open. */
uint8_t qb_try_order(const uint8_t *book, size_t len, const uint8_t *symbol, size_t symbol_len,
                     uint8_t side, uint32_t lots, uint8_t *steps, size_t steps_len, uint64_t report[3]);

/* Reads the head of a log of calls (docs/LOG.md). Answers 0, 90. report: number, symbols, requests; always filled, 0 behind the number after
 * 90. */
uint8_t qb_log_head(const uint8_t *log, size_t log_len, uint64_t report[3]);

/* Carries out the calls of a log from a place on, the first record standing at QB_LOG_HEAD_LEN, and writes their answers one behind the other.
 * Answers 0 at the log's end, 91, 92, or 93 as soon as less than QB_LOG_ANSWER_MOST bytes of output are left: then call again from the
 * place that was told. What stands before the place has been carried out, nothing behind it has.
 * report: number, place, bytes written; always filled. */
uint8_t qb_replay(uint8_t *book, size_t len, const uint8_t *log, size_t log_len, size_t from,
                  uint8_t *output, size_t output_len, uint64_t report[3]);

/* Makes a book for the symbols that the log's head tells, then carries out its calls as qb_replay does. Answers 90 or 2, and changes nothing
 * then; or what qb_replay answers. report: as qb_replay's, with 0 and 0 after 90 and 2. */
uint8_t qb_restore(uint8_t *book, size_t len, const uint8_t *log, size_t log_len,
                   uint8_t *output, size_t output_len, uint64_t report[3]);

/* Writes the block that carries count messages, laid end to end, under a sequence number. No book is needed. Answers 0, 71, 72, 73.
 * lengths: one for each message, messages_len in all.
 * block: 10 + 2 * count + messages_len bytes are needed, QB_BLOCK_MAX at most. The first report[1] are filled; the bytes behind stay.
 * report: number, bytes written (0 after a refusal); always filled. */
uint8_t qb_write_block(const uint8_t *messages, size_t messages_len, const uint32_t *lengths, size_t count,
                       uint32_t sequence, uint8_t *block, size_t block_len, uint64_t report[2]);

/* Whether a call did what it was asked: 0, or the warning 70 of a block that was taken behind a gap. */
static inline int qb_taken(uint8_t number) {
    return number == QB_CHECK_DONE || number == QB_CHECK_GAP;
}

/* How many messages a reported block had: 0 if it was refused. So many answers of four bytes stand in the answer buffer. */
static inline size_t qb_report_messages(const uint64_t report[7]) {
    return report[QB_REPORT_ACCEPTED] + report[QB_REPORT_PARTLY] + report[QB_REPORT_REJECTED];
}

/* A big-endian number of len bytes, 8 at most. */
static inline uint64_t qb_number(const uint8_t *at, int len) {
    uint64_t number = 0;
    while (len-- > 0) number = number << 8 | *at++;
    return number;
}

/* The 11 bytes of the symbol that message i, from 0, of a block names; null if it names none (category C, an unknown type, a message that is
 * too short). Whatever its code is. Only for a block that qb_take_block has taken: then its length and offsets are right. */
static inline const uint8_t *qb_message_symbol(const uint8_t *block, size_t i) {
    size_t count = block[1], at, end;
    uint8_t category, type;
    if (i >= count) return 0;
    at = qb_number(block + 10 + 2 * i, 2);
    end = qb_number(i + 1 < count ? block + 12 + 2 * i : block + 2, 2);
    if (end - at < 20 + QB_SYMBOL_LEN) return 0;
    category = block[at];
    type = block[at + 1];
    if (category == 'T' && type == 'S') return block + at + 20;
    if (category == 'Q' && (type == 'K' || type == 'M' || type == 'T' || type == 'U')) return block + at + 20;
    return 0;
}

/* Entry k of a publication, QB_ENTRY_NATIONAL_BID to QB_ENTRY_ODD_OFFER: its bytes, whether it is none, its price and its size. */
static inline const uint8_t *qb_entry(const uint8_t *publication, int k) {
    return publication + k * QB_ENTRY_LEN;
}

static inline int qb_entry_is_none(const uint8_t *publication, int k) {
    return qb_entry(publication, k)[QB_ENTRY_AT_NAME] == ' ';
}

static inline uint64_t qb_entry_price(const uint8_t *publication, int k) {
    return qb_number(qb_entry(publication, k) + QB_ENTRY_AT_PRICE, 8);
}

static inline uint32_t qb_entry_size(const uint8_t *publication, int k) {
    const uint8_t *at = qb_entry(publication, k) + QB_ENTRY_AT_SIZE;
    uint32_t size = 0;
    int i;
    for (i = 0; i < 4; i++) size = size << 8 | at[i];
    return size;
}

/* One plain sentence for a number that a call answers. */
static inline const char *qb_sentence(uint8_t number) {
    switch (number) {
    case QB_CHECK_DONE: return "The call was done.";
    case QB_CHECK_NO_BOOK: return "The memory is not a book: its opening or its length is wrong.";
    case QB_CHECK_MAKE: return "A book has room for 1 to 64 symbols, in memory of exactly that length.";
    case QB_CHECK_SYMBOL_MALFORMED: return "The symbol is not A to Z, then printable bytes, then spaces, eleven bytes in all.";
    case QB_CHECK_SYMBOL_LISTED: return "The symbol is already listed.";
    case QB_CHECK_BOOK_FULL: return "As many symbols are listed as the book has room for.";
    case QB_CHECK_ROUND_LOT: return "The round lot is not 1, 10, 25, 50 or 100 shares.";
    case QB_CHECK_LINE_OR_LETTER: return "The line is above 63, or its letter is not A to Z without S.";
    case QB_CHECK_LINE_OPEN: return "The line is already open.";
    case QB_CHECK_BUFFER_SHORT: return "The answer buffer is under 180 bytes, or the publication buffer under 96.";
    case QB_CHECK_SYMBOL_UNKNOWN: return "The symbol is malformed or not listed.";
    case QB_CHECK_DAY_OPEN: return "The day is already open.";
    case QB_CHECK_DAY_NOT_OPEN: return "The day is not open.";
    case QB_CHECK_BLOCK_WHILE_CLOSED: return "The block came while the day was not open.";
    case QB_CHECK_LINE_NOT_OPEN: return "The block's line is above 63 or not open.";
    case QB_CHECK_BLOCK_LENGTH: return "The block's length is under 32, over 1,000 or not what its length field says.";
    case QB_CHECK_VERSION: return "The block's version is not 1.";
    case QB_CHECK_CHECKSUM: return "The block's checksum is wrong.";
    case QB_CHECK_OFFSETS: return "The block's message count is not 1 to 45, or its offsets break a rule.";
    case QB_CHECK_CONTROL_NOT_ALONE: return "A control message is not alone in its block.";
    case QB_CHECK_DUPLICATE: return "The block is a duplicate: its sequence number lies behind the expected one.";
    case QB_CHECK_GAP: return "The block was taken, and sequence numbers before it are missing.";
    case QB_CHECK_WRITE_MESSAGES: return "No messages, over 45, one under 20 bytes, lengths that do not add up, or a block over 1,000.";
    case QB_CHECK_WRITE_CONTROL: return "A control message among others: it has to be alone in its block.";
    case QB_CHECK_WRITE_SHORT: return "The output is shorter than the block to write.";
    case QB_CHECK_SIDE: return "The side mark is not B or S.";
    case QB_CHECK_PRIMARY: return "The primary letter is not A to Z, or it is S.";
    case QB_CHECK_VENUE_BLOCK: return "The venue's block breaks a rule of its form.";
    case QB_CHECK_VENUE_UNPLACED: return "A message of the venue's block has no place here: its type, letter, condition or length.";
    case QB_CHECK_CONVERT_SHORT: return "The output is shorter than the run to write.";
    case QB_CHECK_SNAPSHOT_SHORT: return "The output is shorter than the snapshot.";
    case QB_CHECK_LOTS: return "The lots are not 1 to 1,000,000.";
    case QB_CHECK_STEPS_SHORT: return "The output is under 325 bytes.";
    case QB_CHECK_ALLOWANCE: return "The blocks for a tick are not 1 to 255.";
    case QB_CHECK_SHARES: return "There are not 64 shares, or their sum is above the blocks for a tick.";
    case QB_CHECK_USED_UP: return "The share of the block's line and the spare are used in this tick.";
    case QB_CHECK_LOG_HEAD: return "The log does not begin with a head.";
    case QB_CHECK_LOG_CUT: return "The log ends inside a record: it was cut, or the record's length is damaged.";
    case QB_CHECK_LOG_DAMAGED: return "A record of the log is damaged: its check, its length, its kind or its arguments.";
    case QB_CHECK_LOG_ROOM: return "The output may be too short for one more answer.";
    default: return "No number of a call.";
    }
}

/* One plain sentence for the code of a message. */
static inline const char *qb_code_sentence(uint8_t code) {
    switch (code) {
    case QB_CODE_ACCEPTED: return "The message was accepted.";
    case QB_CODE_UNKNOWN_TYPE: return "The category and type are unknown.";
    case QB_CODE_LETTER: return "The letter is not the line's.";
    case QB_CODE_LENGTH: return "The length is not its type's.";
    case QB_CODE_FIXED_BYTE: return "A byte that must be zero is not, or a test byte is wrong.";
    case QB_CODE_WRONG_LINE: return "Close, Open, makers and odd lots of FINRA go on D's line only, other quotes on any other.";
    case QB_CODE_SYMBOL: return "The symbol is malformed or not listed.";
    case QB_CODE_CONDITION: return "The condition is not one that the type takes.";
    case QB_CODE_SIZE_WITHOUT_PRICE: return "A side has a size and no price.";
    case QB_CODE_MAKER: return "The maker's name is not one to four letters A to Z, then spaces.";
    case QB_CODE_MAKERS_FULL: return "Sixteen makers stand already, and this is another.";
    case QB_CODE_CLEAR_MARK: return "The clear mark is not a space, B, S or X.";
    case QB_CODE_ITEM_COUNT: return "There are more than four odd bids or more than four odd offers.";
    case QB_CODE_ITEM_PRICE: return "An odd item has price 0.";
    case QB_CODE_ITEM_SHARES: return "An odd item has a round lot of shares or more.";
    case QB_CODE_FIFTH_LEVEL: return "An odd item would make a fifth level.";
    case QB_CODE_NOT_PRIMARY: return "The line's letter is not the symbol's primary letter, which alone may halt it.";
    case QB_CODE_STATUS: return "The trading status is not H (halted) or T (trading).";
    default: return "No code of a message.";
    }
}

#ifdef __cplusplus
}
#endif

#endif
