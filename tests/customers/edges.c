/* What the header says at its edges: null with length 0, the version, taken numbers, the symbols of messages, sentences. Prints nothing if all is
 * so, else the line that is not. */
#include <stdio.h>
#include <stdlib.h>
#include "messages.h"

static int failed;

#define EXPECT(what) \
    do { \
        if (!(what)) { \
            printf("line %d: %s\n", __LINE__, #what); \
            failed = 1; \
        } \
    } while (0)

/* Every call with null and length 0 answers a number, and with a book beside it what its checks say. */
static void null_pointers(uint8_t *book, size_t len) {
    uint64_t report[QB_REPORT_LEN];
    uint8_t answer[QB_ANSWER_LEN], publication[QB_PUBLICATION_LEN];
    EXPECT(qb_make(NULL, 0, 1) == QB_CHECK_MAKE);
    EXPECT(qb_add_symbol(NULL, 0, NULL, 0, 100, 'N') == QB_CHECK_NO_BOOK);
    EXPECT(qb_add_symbol(book, len, NULL, 0, 100, 'N') == QB_CHECK_SYMBOL_MALFORMED);
    EXPECT(qb_open_line(NULL, 0, 5, 'N') == QB_CHECK_NO_BOOK);
    EXPECT(qb_start_day(NULL, 0) == QB_CHECK_NO_BOOK);
    EXPECT(qb_end_day(NULL, 0) == QB_CHECK_NO_BOOK);
    EXPECT(qb_set_allowance(NULL, 0, 1, NULL, 0) == QB_CHECK_NO_BOOK);
    EXPECT(qb_set_allowance(book, len, 0, NULL, 0) == QB_CHECK_ALLOWANCE);
    EXPECT(qb_set_allowance(book, len, 1, NULL, 0) == QB_CHECK_SHARES);
    EXPECT(qb_tick(NULL, 0) == QB_CHECK_NO_BOOK);
    EXPECT(qb_take_block(NULL, 0, 5, NULL, 0, NULL, 0, report) == QB_CHECK_NO_BOOK);
    EXPECT(qb_take_block(book, len, 5, NULL, 0, NULL, 0, report) == QB_CHECK_BUFFER_SHORT);
    EXPECT(qb_take_block(book, len, 5, NULL, 0, answer, sizeof answer, report) == QB_CHECK_BLOCK_LENGTH);
    EXPECT(qb_report_messages(report) == 0 && report[QB_REPORT_EXPECTED] == 1);
    EXPECT(qb_read(NULL, 0, NULL, 0, NULL, 0) == QB_CHECK_NO_BOOK);
    EXPECT(qb_read(book, len, NULL, 0, NULL, 0) == QB_CHECK_BUFFER_SHORT);
    EXPECT(qb_read(book, len, NULL, 0, publication, sizeof publication) == QB_CHECK_SYMBOL_UNKNOWN);
    EXPECT(qb_is_protected(NULL, 0, NULL, 0, 'B', 0, report) == QB_CHECK_NO_BOOK);
    EXPECT(qb_is_protected(book, len, NULL, 0, 'B', 0, report) == QB_CHECK_SYMBOL_UNKNOWN);
    EXPECT(qb_convert_len(NULL, 0, NULL, 0, report) == QB_CHECK_NO_BOOK);
    EXPECT(qb_convert_len(book, len, NULL, 0, report) == QB_CHECK_VENUE_BLOCK);
    EXPECT(qb_convert(NULL, 0, NULL, 0, NULL, 0, report) == QB_CHECK_NO_BOOK);
    EXPECT(qb_convert(book, len, NULL, 0, NULL, 0, report) == QB_CHECK_VENUE_BLOCK);
    EXPECT(qb_write_block(NULL, 0, NULL, 0, 1, NULL, 0, report) == QB_CHECK_WRITE_MESSAGES);
    EXPECT(qb_snapshot_len(NULL, 0, NULL, 0, report) == QB_CHECK_NO_BOOK);
    EXPECT(qb_snapshot_len(book, len, NULL, 0, report) == QB_CHECK_SYMBOL_UNKNOWN);
    EXPECT(qb_snapshot(NULL, 0, NULL, 0, NULL, 0, report) == QB_CHECK_NO_BOOK);
    EXPECT(qb_snapshot(book, len, NULL, 0, NULL, 0, report) == QB_CHECK_SYMBOL_UNKNOWN);
    EXPECT(qb_try_order(NULL, 0, NULL, 0, 'B', 1, NULL, 0, report) == QB_CHECK_NO_BOOK);
    EXPECT(qb_try_order(book, len, NULL, 0, 'B', 1, NULL, 0, report) == QB_CHECK_SYMBOL_UNKNOWN);
}

/* A live book is made anew by its own n, and by no other. */
static void made_anew(uint8_t *book, size_t len) {
    static const uint8_t zt[] = "ZT         ";
    uint8_t publication[QB_PUBLICATION_LEN];
    EXPECT(qb_add_symbol(book, len, zt, QB_SYMBOL_LEN, 100, 'N') == QB_CHECK_DONE);
    EXPECT(qb_start_day(book, len) == QB_CHECK_DONE);
    EXPECT(qb_make(book, len, 2) == QB_CHECK_MAKE);
    EXPECT(qb_read(book, len, zt, QB_SYMBOL_LEN, publication, sizeof publication) == QB_CHECK_DONE);
    EXPECT(qb_make(book, len, 1) == QB_CHECK_DONE);
    EXPECT(qb_read(book, len, zt, QB_SYMBOL_LEN, publication, sizeof publication) == QB_CHECK_SYMBOL_UNKNOWN);
    EXPECT(qb_end_day(book, len) == QB_CHECK_DAY_NOT_OPEN);
}

/* Two blocks for a tick, one of them line 5's: the third waits for the next tick, and is then in order. */
static void allowance(void) {
    size_t len = (size_t)qb_book_len(1);
    uint8_t *book = (uint8_t *)malloc(len), shares[QB_SHARES_LEN] = {0}, control[CONTROL_LEN], block[QB_BLOCK_MAX], answer[QB_ANSWER_LEN];
    uint64_t report[QB_REPORT_LEN];
    if (!book) exit(1);
    shares[5] = 1;
    EXPECT(qb_make(book, len, 1) == QB_CHECK_DONE && qb_open_line(book, len, 5, 'D') == QB_CHECK_DONE);
    EXPECT(qb_tick(book, len) == QB_CHECK_DONE);
    EXPECT(qb_set_allowance(book, len, 256, shares, sizeof shares) == QB_CHECK_ALLOWANCE);
    EXPECT(qb_set_allowance(book, len, 2, shares, sizeof shares - 1) == QB_CHECK_SHARES);
    EXPECT(qb_set_allowance(book, len, 2, shares, sizeof shares) == QB_CHECK_DONE);
    EXPECT(qb_start_day(book, len) == QB_CHECK_DONE);
    put_header(control, "CO", 'D', 1);
    for (uint32_t sequence = 1; sequence <= 3; sequence++) {
        size_t sent = put_block(block, control, sizeof control, sequence);
        uint8_t number = qb_take_block(book, len, 5, block, sent, answer, sizeof answer, report);
        EXPECT(number == (sequence == 3 ? QB_CHECK_USED_UP : QB_CHECK_DONE));
        if (sequence < 3) continue;
        EXPECT(qb_report_messages(report) == 0 && report[QB_REPORT_EXPECTED] == 3 && report[QB_REPORT_COUNT] == 2);
        EXPECT(qb_tick(book, len) == QB_CHECK_DONE);
        EXPECT(qb_take_block(book, len, 5, block, sent, answer, sizeof answer, report) == QB_CHECK_DONE);
    }
    free(book);
}

/* One block with these messages, in memory of exactly its length, so that a checker of memory sees a byte too far. */
static void symbols(void) {
    static const struct {
        const char *type;
        uint32_t len;
        int named;
    } sent[] = {{"QK", 60, 1}, {"QM", 36, 1}, {"QT", 36, 1}, {"QU", 60, 1}, {"TS", 32, 1}, {"QK", 31, 1}, {"QK", 30, 0},
                {"TS", 20, 0}, {"QZ", 60, 0}, {"TT", 32, 0}, {"XK", 60, 0}, {"QM", 20, 0}};
    enum { COUNT = sizeof sent / sizeof *sent };
    uint8_t messages[QB_BLOCK_MAX], symbol[QB_SYMBOL_LEN], long_block[QB_BLOCK_MAX], control[CONTROL_LEN];
    uint32_t lengths[COUNT];
    uint64_t written[2];
    size_t at = 0;
    put_symbol(symbol, "ZT");
    for (int i = 0; i < COUNT; i++) {
        memset(messages + at, 0, sent[i].len);
        put_header(messages + at, sent[i].type, 'N', 1);
        if (sent[i].len >= 31) memcpy(messages + at + 20, symbol, sizeof symbol);
        lengths[i] = sent[i].len;
        at += sent[i].len;
    }
    EXPECT(qb_write_block(messages, at, lengths, COUNT, 1, long_block, sizeof long_block, written) == QB_CHECK_DONE);
    uint8_t *block = (uint8_t *)malloc((size_t)written[1]);
    if (!block) exit(1);
    memcpy(block, long_block, (size_t)written[1]);
    for (int i = 0; i < COUNT; i++) {
        const uint8_t *found = qb_message_symbol(block, (size_t)i);
        EXPECT((found != NULL) == sent[i].named);
        EXPECT(!found || memcmp(found, symbol, sizeof symbol) == 0);
    }
    EXPECT(qb_message_symbol(block, COUNT) == NULL);
    put_header(control, "CO", 'D', 1);
    put_block(long_block, control, sizeof control, 1);
    EXPECT(qb_message_symbol(long_block, 0) == NULL);
    free(block);
}

static void numbers(void) {
    uint8_t none[QB_PUBLICATION_LEN];
    int taken = 0;
    for (int n = 0; n < 256; n++) {
        taken += qb_taken((uint8_t)n);
        EXPECT(strlen(qb_sentence((uint8_t)n)) > 10 && strlen(qb_code_sentence((uint8_t)n)) > 10);
    }
    EXPECT(taken == 2 && qb_taken(QB_CHECK_DONE) && qb_taken(QB_CHECK_GAP));
    EXPECT(qb_version() == QB_LIBRARY_VERSION);
    EXPECT(qb_book_len(1) == QB_OPENING_LEN + QB_PAGE_LEN && qb_book_len(0) == 0 && qb_book_len(65) == 0);
    memset(none, 0, sizeof none);
    for (int k = 0; k < QB_ENTRIES; k++) memset(none + k * QB_ENTRY_LEN, ' ', 4);
    for (int k = 0; k < QB_ENTRIES; k++) EXPECT(qb_entry_is_none(none, k) && qb_entry_price(none, k) == 0 && qb_entry_size(none, k) == 0);
    put(none + QB_ENTRY_LEN * QB_ENTRY_ODD_OFFER + QB_ENTRY_AT_PRICE, 8, 0x0102030405060708);
    put(none + QB_ENTRY_LEN * QB_ENTRY_ODD_OFFER + QB_ENTRY_AT_SIZE, 4, 0x090A0B0C);
    EXPECT(qb_entry_price(none, QB_ENTRY_ODD_OFFER) == 0x0102030405060708 && qb_entry_size(none, QB_ENTRY_ODD_OFFER) == 0x090A0B0C);
}

int main(void) {
    size_t len = (size_t)qb_book_len(1);
    uint8_t *book = (uint8_t *)malloc(len);
    if (!book || qb_make(book, len, 1) || qb_open_line(book, len, 5, 'N')) return 1;
    null_pointers(book, len);
    made_anew(book, len);
    allowance();
    symbols();
    numbers();
    free(book);
    return failed;
}
