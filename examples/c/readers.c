/* One thread feeds a book, others read. A read beside a running qb_take_block may see half of a change, so readers never touch the book:
 * the feeding thread copies what changed into cells, and a reader copies a whole cell or tries again (a sequence lock).
 * tests/customers builds and runs it, once more under the thread sanitizer. C11, -pthread. */
#include <pthread.h>
#include <stdatomic.h>
#include <stdio.h>
#include <stdlib.h>
#include "messages.h"

enum { SYMBOLS = 2, READERS = 2, BLOCKS = 200000, WORDS = QB_PUBLICATION_LEN / 8, LINE = 5, TICK = 20000 };

static const char *const names[SYMBOLS] = {"ZT", "IBM"};

/* A symbol's publication for readers. The turn is odd while it is being written. */
typedef struct {
    _Atomic uint64_t turn;
    _Atomic uint64_t words[WORDS];
} Cell;

static Cell cells[SYMBOLS];
static _Atomic int fed;

/* The feeding thread alone. Each word is released behind the odd turn: who sees a new word sees that turn too. */
static void cell_write(Cell *cell, const uint8_t publication[QB_PUBLICATION_LEN]) {
    uint64_t words[WORDS], turn = atomic_load_explicit(&cell->turn, memory_order_relaxed);
    memcpy(words, publication, sizeof words);
    atomic_store_explicit(&cell->turn, turn + 1, memory_order_relaxed);
    for (int i = 0; i < WORDS; i++) atomic_store_explicit(&cell->words[i], words[i], memory_order_release);
    atomic_store_explicit(&cell->turn, turn + 2, memory_order_release);
}

/* Any thread. A copy counts if the turn was even and is still the same. */
static void cell_read(Cell *cell, uint8_t publication[QB_PUBLICATION_LEN]) {
    uint64_t words[WORDS], before, after;
    do {
        before = atomic_load_explicit(&cell->turn, memory_order_acquire);
        for (int i = 0; i < WORDS; i++) words[i] = atomic_load_explicit(&cell->words[i], memory_order_acquire);
        after = atomic_load_explicit(&cell->turn, memory_order_relaxed);
    } while (before != after || before % 2 != 0);
    memcpy(publication, words, sizeof words);
}

static void publish(const uint8_t *book, size_t len, int k) {
    uint8_t symbol[QB_SYMBOL_LEN], publication[QB_PUBLICATION_LEN];
    put_symbol(symbol, names[k]);
    if (qb_read(book, len, symbol, sizeof symbol, publication, sizeof publication)) abort();
    cell_write(&cells[k], publication);
}

/* Behind a taken block: the symbols of the messages with flags; all of them where a message names none, as FINRA Open and Close. */
static void publish_changes(const uint8_t *book, size_t len, const uint8_t *block, const uint8_t *answer, size_t messages) {
    for (size_t i = 0; i < messages; i++) {
        if (answer[4 * i + 2] == 0) continue;
        const uint8_t *symbol = qb_message_symbol(block, i);
        for (int k = 0; k < SYMBOLS; k++) {
            uint8_t name[QB_SYMBOL_LEN];
            put_symbol(name, names[k]);
            if (!symbol || memcmp(symbol, name, QB_SYMBOL_LEN) == 0) publish(book, len, k);
        }
    }
}

/* Quotes whose parts belong together, so that a torn copy would show: the offer a tick above the bid, both sizes from the bid. */
static uint32_t lots_of(uint64_t price) { return (uint32_t)(price % 1000 + 1); }

static void feed(uint8_t *book, size_t len) {
    uint8_t quote[QUOTE_LEN], block[QB_BLOCK_MAX], answer[QB_ANSWER_LEN];
    uint64_t report[QB_REPORT_LEN];
    for (uint32_t k = 0; k < BLOCKS; k++) {
        Side bid = {10000000 + k, lots_of(10000000 + k)}, offer = {bid.price + TICK, bid.lots};
        put_quote(quote, 'N', k, names[k % SYMBOLS], bid, offer);
        size_t block_len = put_block(block, quote, QUOTE_LEN, k + 1);
        if (!qb_taken(qb_take_block(book, len, LINE, block, block_len, answer, sizeof answer, report))) abort();
        publish_changes(book, len, block, answer, qb_report_messages(report));
    }
    atomic_store(&fed, 1);
}

/* Reads until the feed has ended, and once more; how many copies were torn. */
static void *read_on(void *unused) {
    uint8_t publication[QB_PUBLICATION_LEN];
    uintptr_t torn = 0;
    int last;
    (void)unused;
    do {
        last = atomic_load(&fed);
        for (int k = 0; k < SYMBOLS; k++) {
            cell_read(&cells[k], publication);
            if (qb_entry_price(publication, QB_ENTRY_NATIONAL_BID) == 0) continue; /* nothing yet */
            uint64_t bid = qb_entry_price(publication, QB_ENTRY_NATIONAL_BID);
            uint32_t lots = lots_of(bid);
            if (qb_entry_price(publication, QB_ENTRY_NATIONAL_OFFER) != bid + TICK || qb_entry_size(publication, QB_ENTRY_NATIONAL_BID) != lots
                || qb_entry_size(publication, QB_ENTRY_NATIONAL_OFFER) != lots) torn++;
        }
    } while (!last);
    return (void *)torn;
}

int main(void) {
    size_t len = (size_t)qb_book_len(SYMBOLS);
    uint8_t *book = (uint8_t *)malloc(len), symbol[QB_SYMBOL_LEN], publication[QB_PUBLICATION_LEN];
    if (!book || qb_make(book, len, SYMBOLS) || qb_open_line(book, len, LINE, 'N')) return 1;
    for (int k = 0; k < SYMBOLS; k++) {
        put_symbol(symbol, names[k]);
        if (qb_add_symbol(book, len, symbol, sizeof symbol, 100, 'N')) return 1;
    }
    if (qb_start_day(book, len)) return 1;
    for (int k = 0; k < SYMBOLS; k++) publish(book, len, k);

    pthread_t readers[READERS];
    uintptr_t torn = 0;
    for (int i = 0; i < READERS; i++) if (pthread_create(&readers[i], NULL, read_on, NULL)) return 1;
    feed(book, len);
    for (int i = 0; i < READERS; i++) {
        void *told;
        pthread_join(readers[i], &told);
        torn += (uintptr_t)told;
    }
    printf("%d blocks fed, %d readers beside, torn copies: %d\n", BLOCKS, READERS, (int)torn);
    for (int k = 0; k < SYMBOLS; k++) {
        cell_read(&cells[k], publication);
        printf("%s: bid %.6f for %d\n", names[k], (double)qb_entry_price(publication, QB_ENTRY_NATIONAL_BID) / 1e6,
               (int)qb_entry_size(publication, QB_ENTRY_NATIONAL_BID));
    }
    free(book);
    return torn != 0;
}
