/* Monitoring: what each line brought, counted from the report and the answers of every block. What to watch, and from which count on to wake
 * somebody, is in docs/RUNBOOK.md. tests/customers builds and runs it. C99. */
#include <stdio.h>
#include <stdlib.h>
#include "messages.h"

enum { LINES = 64 };

typedef struct {
    uint64_t numbers[256]; /* blocks, by the number that the call answered: 0 and 70 are taken, 35 is a second copy, the rest is trouble */
    uint64_t codes[256];   /* messages of taken blocks, by code */
    uint64_t partly;       /* quotes that are in force without their odd lots */
    uint64_t missing;      /* sequence numbers that never came */
} LineStats;

static LineStats stats[LINES];

/* qb_take_block, counted. */
static uint8_t take_block(uint8_t *book, size_t len, uint32_t line, const uint8_t *block, size_t block_len, uint8_t answer[QB_ANSWER_LEN],
                          uint64_t report[QB_REPORT_LEN]) {
    uint8_t number = qb_take_block(book, len, line, block, block_len, answer, QB_ANSWER_LEN, report);
    if (line < LINES) {
        LineStats *its = &stats[line];
        its->numbers[number]++;
        its->missing += report[QB_REPORT_GAP];
        its->partly += report[QB_REPORT_PARTLY];
        for (size_t i = 0; i < qb_report_messages(report); i++) its->codes[answer[4 * i + 1]]++;
    }
    return number;
}

static void print_stats(void) {
    for (int line = 0; line < LINES; line++) {
        const LineStats *its = &stats[line];
        uint64_t blocks = 0;
        for (int n = 0; n < 256; n++) blocks += its->numbers[n];
        if (!blocks) continue;
        printf("line %d: %d blocks, %d sequence numbers missing, %d quotes without their odd lots\n", line, (int)blocks, (int)its->missing, (int)its->partly);
        for (int n = 0; n < 256; n++)
            if (its->numbers[n]) printf("  blocks   %3d: %d  %s\n", n, (int)its->numbers[n], qb_sentence((uint8_t)n));
        for (int n = 0; n < 256; n++)
            if (its->codes[n]) printf("  messages %3d: %d  %s\n", n, (int)its->codes[n], qb_code_sentence((uint8_t)n));
    }
}

int main(void) {
    size_t len = (size_t)qb_book_len(1);
    uint8_t *book = (uint8_t *)malloc(len), symbol[QB_SYMBOL_LEN], quote[QUOTE_LEN], block[QB_BLOCK_MAX], answer[QB_ANSWER_LEN];
    uint64_t report[QB_REPORT_LEN];
    put_symbol(symbol, "ZT");
    if (!book || qb_make(book, len, 1) || qb_add_symbol(book, len, symbol, sizeof symbol, 100, 'N') || qb_open_line(book, len, 5, 'N')
        || qb_open_line(book, len, 7, 'P') || qb_start_day(book, len)) return 1;

    const Side bid = {10000000, 3}, offer = {10020000, 2}, nothing = {0, 1}; /* a size without a price: 47 */
    const struct {
        uint32_t line, sequence;
        char letter;
        const char *name;
        Side bid;
        int spoiled;
    } sent[] = {
        {5, 1, 'N', "ZT", bid, 0}, {5, 2, 'N', "ZT", nothing, 0}, {5, 2, 'N', "ZT", bid, 0}, /* a second copy of number 2 */
        {5, 6, 'N', "ZT", bid, 0}, {7, 1, 'P', "IBM", bid, 0},    {7, 2, 'N', "ZT", bid, 0}, /* N's quote on P's line */
        {7, 3, 'P', "ZT", bid, 1}, {7, 3, 'P', "ZT", bid, 0},
    };
    for (size_t i = 0; i < sizeof sent / sizeof *sent; i++) {
        put_quote(quote, sent[i].letter, i, sent[i].name, sent[i].bid, offer);
        size_t block_len = put_block(block, quote, QUOTE_LEN, sent[i].sequence);
        block[block_len - 1] ^= (uint8_t)sent[i].spoiled; /* damaged on its way */
        take_block(book, len, sent[i].line, block, block_len, answer, report);
    }
    print_stats();
    free(book);
    return 0;
}
