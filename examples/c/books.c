/* More than 64 symbols: several books side by side. Every line is opened in every book, and every block is given to all of them, so that each
 * book sees each line's numbers, gaps and FINRA's Open and Close. A message gets its code from the book that lists its symbol; the others
 * answer 45 (not listed), and only if all of them do is the symbol unknown. tests/customers builds and runs it. C99. */
#include <stdio.h>
#include <stdlib.h>
#include "messages.h"

enum { PER_BOOK = 64, BOOKS = 2, SYMBOLS = 100, LINE = 5 };

typedef struct {
    uint8_t *bytes[BOOKS];
    size_t len[BOOKS];
} Books;

/* The number that all books answer, and for each message its code and the flags of whichever book took it. */
static uint8_t take_block(Books *books, uint32_t line, const uint8_t *block, size_t block_len, uint8_t answer[QB_ANSWER_LEN],
                          uint64_t report[QB_REPORT_LEN]) {
    uint8_t number = qb_take_block(books->bytes[0], books->len[0], line, block, block_len, answer, QB_ANSWER_LEN, report);
    for (int b = 1; b < BOOKS; b++) {
        uint8_t also[QB_ANSWER_LEN];
        uint64_t told[QB_REPORT_LEN];
        /* the lines stand alike in every book, so the numbers are the same; another one would mean that a book was left out before */
        if (qb_take_block(books->bytes[b], books->len[b], line, block, block_len, also, sizeof also, told) != number) abort();
        for (size_t i = 0; i < qb_report_messages(told); i++) {
            if (answer[4 * i + 1] == QB_CODE_SYMBOL) answer[4 * i + 1] = also[4 * i + 1];
            answer[4 * i + 2] |= also[4 * i + 2];
        }
    }
    return number; /* of the report, number, gap, expected and count hold; count the codes anew */
}

/* The book that lists the symbol answers, the others refuse with 10. */
static uint8_t read_symbol(const Books *books, const uint8_t symbol[QB_SYMBOL_LEN], uint8_t publication[QB_PUBLICATION_LEN]) {
    uint8_t number = QB_CHECK_SYMBOL_UNKNOWN;
    for (int b = 0; b < BOOKS && number == QB_CHECK_SYMBOL_UNKNOWN; b++)
        number = qb_read(books->bytes[b], books->len[b], symbol, QB_SYMBOL_LEN, publication, QB_PUBLICATION_LEN);
    return number;
}

int main(void) {
    Books books;
    uint8_t symbol[QB_SYMBOL_LEN], quote[QUOTE_LEN], block[QB_BLOCK_MAX], answer[QB_ANSWER_LEN], publication[QB_PUBLICATION_LEN];
    uint64_t report[QB_REPORT_LEN];
    char name[QB_SYMBOL_LEN + 1];
    for (int b = 0; b < BOOKS; b++) {
        books.len[b] = (size_t)qb_book_len(PER_BOOK);
        books.bytes[b] = (uint8_t *)malloc(books.len[b]);
        if (!books.bytes[b] || qb_make(books.bytes[b], books.len[b], PER_BOOK) || qb_open_line(books.bytes[b], books.len[b], LINE, 'N')) return 1;
    }
    for (int k = 0; k < SYMBOLS; k++) {
        int b = k / PER_BOOK;
        snprintf(name, sizeof name, "X%d", k);
        put_symbol(symbol, name);
        if (qb_add_symbol(books.bytes[b], books.len[b], symbol, sizeof symbol, 100, 'N')) return 1;
    }
    for (int b = 0; b < BOOKS; b++) if (qb_start_day(books.bytes[b], books.len[b])) return 1;

    int accepted = 0, unknown = 0;
    for (int k = 0; k <= SYMBOLS; k++) { /* one more than there are */
        Side bid = {10000000 + 10000 * (uint64_t)k, 3}, offer = {bid.price + 20000, 2};
        snprintf(name, sizeof name, "X%d", k);
        put_quote(quote, 'N', 1, name, bid, offer);
        size_t len = put_block(block, quote, QUOTE_LEN, (uint32_t)k + 1);
        if (!qb_taken(take_block(&books, LINE, block, len, answer, report))) return 1;
        accepted += answer[1] == QB_CODE_ACCEPTED;
        unknown += answer[1] == QB_CODE_SYMBOL;
    }
    printf("%d accepted, %d of an unknown symbol, next expected %d\n", accepted, unknown, (int)report[QB_REPORT_EXPECTED]);
    for (int k = 0; k <= SYMBOLS; k += 50) {
        snprintf(name, sizeof name, "X%d", k);
        put_symbol(symbol, name);
        uint8_t number = read_symbol(&books, symbol, publication);
        if (number) printf("%s: %s\n", name, qb_sentence(number));
        else printf("%s: bid %.2f\n", name, (double)qb_entry_price(publication, QB_ENTRY_NATIONAL_BID) / 1e6);
    }
    for (int b = 0; b < BOOKS; b++) free(books.bytes[b]);
    return 0;
}
