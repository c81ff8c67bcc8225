/* One quote of the New York Stock Exchange becomes a block, the block goes into a book, and the best prices come out; then a desk asks
 * whether prices are protected, a router tries an order, a snapshot is written for subscribers, and the exchange halts the symbol.
 * `tests/c-example` builds and runs it. */
#include <stdio.h>
#include <stdlib.h>
#include <string.h>
#include "quotebook.h"

/* Writes a big-endian number of len bytes. */
static void put(uint8_t *at, int len, uint64_t number) {
    while (len-- > 0) { at[len] = (uint8_t)number; number >>= 8; }
}

static uint64_t get(const uint8_t *at, int len) {
    uint64_t number = 0;
    while (len-- > 0) number = number << 8 | *at++;
    return number;
}

/* A round-lot quote (Q K) of N for ZT: bid 10.00 for 3 lots, offer 10.02 for 2. */
static void quote_message(uint8_t quote[60]) {
    memset(quote, 0, 60);
    memcpy(quote, "QKN", 3);                                                /* category, type and letter */
    put(quote + 4, 8, 34200000000000);                                      /* timestamp */
    memcpy(quote + 20, "ZT         R", 12);                                 /* symbol and condition */
    put(quote + 32, 8, 10000000); put(quote + 40, 4, 3);                    /* bid */
    put(quote + 44, 8, 10020000); put(quote + 52, 4, 2);                    /* offer */
    quote[56] = ' ';                                                        /* clears no odd lots */
}

/* A trading status (T S) of N for ZT: H halts it, T lets it trade. */
static void status_message(uint8_t message[32], char status) {
    memset(message, 0, 32);
    memcpy(message, "TSN", 3);
    put(message + 4, 8, 34201000000000);
    memcpy(message + 20, "ZT         ", 11);
    message[31] = (uint8_t)status;
}

int main(void) {
    static const uint8_t zt[] = "ZT         ";
    uint8_t quote[60], status[32], block[QB_BLOCK_MAX], answer[QB_ANSWER_LEN], publication[QB_PUBLICATION_LEN], steps[QB_STEPS_LEN];
    uint8_t snapshot[QB_SNAPSHOT_MAX];
    const uint32_t lengths[] = {sizeof quote}, halt[] = {sizeof status};    /* one for each message */
    uint64_t written[2], report[QB_REPORT_LEN], told[QB_PROTECTED_LEN], tried[QB_TRIED_LEN], size[QB_SIZE_LEN];
    size_t len = (size_t)qb_book_len(1);
    uint8_t *book = (uint8_t *)malloc(len);
    if (!book || qb_make(book, len, 1) || qb_add_symbol(book, len, zt, QB_SYMBOL_LEN, 100, 'N') /* N may halt it */
        || qb_open_line(book, len, 5, 'N') || qb_start_day(book, len)) return 1;

    quote_message(quote);                                                   /* the block carries it under sequence number 1 */
    if (qb_write_block(quote, sizeof quote, lengths, 1, 1, block, sizeof block, written)) return 1;
    printf("written: a block of %d bytes\n", (int)written[1]);

    uint8_t number = qb_take_block(book, len, 5, block, (size_t)written[1], answer, sizeof answer, report);
    printf("block %d, next expected %d, message 0: code %d, flags %d\n", number, (int)report[QB_REPORT_EXPECTED], answer[1], answer[2]);

    if (qb_read(book, len, zt, QB_SYMBOL_LEN, publication, sizeof publication)) return 1;
    for (int side = 0; side < 2; side++) {
        const uint8_t *entry = publication + side * QB_ENTRY_LEN;
        double price = (double)get(entry + 4, 8) / 1e6;                     /* six implied decimals */
        printf("best %s: %c %.2f for %d\n", side ? "offer" : "bid", entry[0], price, (int)get(entry + 12, 4));
    }
    for (uint64_t price = 9990000; price <= 10010000; price += 10000) {     /* 9.99, 10.00, 10.01 */
        if (qb_is_protected(book, len, zt, QB_SYMBOL_LEN, 'B', price, told)) return 1;
        printf("a bid at %.2f or more: %s, letters looked at %d\n", (double)price / 1e6,
               told[QB_PROTECTED_YES] ? "yes" : "no", (int)told[QB_PROTECTED_LOOKED]);
    }
    if (qb_try_order(book, len, zt, QB_SYMBOL_LEN, 'B', 5, steps, sizeof steps, tried)) return 1; /* 5 lots to buy */
    for (const uint8_t *step = steps; step < steps + QB_STEP_LEN * tried[QB_TRIED_STEPS]; step += QB_STEP_LEN)
        printf("buy: %c %.2f for %d\n", step[QB_STEP_LETTER], (double)get(step + QB_STEP_PRICE, 8) / 1e6, (int)get(step + QB_STEP_LOTS, 4));
    printf("lots not found: %d\n", (int)tried[QB_TRIED_UNFILLED]);

    if (qb_snapshot(book, len, zt, QB_SYMBOL_LEN, snapshot, sizeof snapshot, size)) return 1; /* ZT as it stands, for subscribers */
    for (const uint8_t *sent = snapshot; sent < snapshot + size[QB_SIZE_BYTES]; sent += get(sent + 1, 2))
        printf("snapshot: a block of %d bytes, messages %d\n", (int)get(sent + 1, 2), sent[7]);

    status_message(status, 'H');                                            /* its primary exchange halts ZT */
    if (qb_write_block(status, sizeof status, halt, 1, 2, block, sizeof block, written)
        || qb_take_block(book, len, 5, block, (size_t)written[1], answer, sizeof answer, report)
        || qb_is_protected(book, len, zt, QB_SYMBOL_LEN, 'B', 9990000, told)
        || qb_try_order(book, len, zt, QB_SYMBOL_LEN, 'B', 5, steps, sizeof steps, tried)
        || qb_read(book, len, zt, QB_SYMBOL_LEN, publication, sizeof publication)) return 1;
    printf("halted: code %d, flags %d; a bid at 9.99 or more: %s; best bid: %s; lots not found: %d\n", answer[1], answer[2],
           told[QB_PROTECTED_YES] ? "yes" : "no", publication[0] == ' ' ? "none" : "one", (int)tried[QB_TRIED_UNFILLED]);
    free(book);
    return 0;
}
