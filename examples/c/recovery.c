/* Recovery after a gap. The book takes a block that comes too early and warns (70), and what comes late is then a duplicate (35): so hold an
 * early block back, ask the sender for what is missing, and give the book everything in order. If it never comes, give the book what is held:
 * the first of it gets 70. tests/customers builds and runs it. C99. */
#include <stdio.h>
#include <stdlib.h>
#include "messages.h"

enum { HELD = 8, LINE = 5 };

typedef struct {
    uint8_t *book;
    size_t len;
    uint32_t expected; /* the line's next number, as the last report told */
    struct {
        uint8_t bytes[QB_BLOCK_MAX];
        size_t len; /* 0: the place is free */
    } held[HELD];
} Feed;

static uint32_t number_of(const uint8_t *block) { return (uint32_t)qb_number(block + 4, 4); }

static void take(Feed *feed, const uint8_t *block, size_t len) {
    uint8_t answer[QB_ANSWER_LEN];
    uint64_t report[QB_REPORT_LEN];
    uint8_t number = qb_take_block(feed->book, feed->len, LINE, block, len, answer, sizeof answer, report);
    feed->expected = (uint32_t)report[QB_REPORT_EXPECTED];
    if (number == QB_CHECK_GAP) printf("  taken behind a gap of %d, %d is next\n", (int)report[QB_REPORT_GAP], (int)feed->expected);
    else if (qb_taken(number)) printf("  taken, %d is next\n", (int)feed->expected);
    else printf("  %d: %s\n", number, qb_sentence(number));
}

/* How far a block is ahead of the line; 0 if it is to be given to the book now: in order, a duplicate, or no block at all. C I, C T and C 5
 * move no line and have no place in the order. */
static uint32_t ahead_of(const Feed *feed, const uint8_t *block, size_t len) {
    if (len < 32) return 0;
    const uint8_t *alone = block + 12; /* the message of a block with one */
    if (block[1] == 1 && alone[0] == 'C' && (alone[1] == 'I' || alone[1] == 'T' || alone[1] == '5')) return 0;
    uint32_t ahead = number_of(block) - feed->expected; /* modulo 2^32 */
    return ahead <= 0x7FFFFFFF ? ahead : 0;
}

/* Takes the held block that is least far ahead, if it is no farther ahead than this. */
static int take_held(Feed *feed, uint32_t farthest) {
    int best = -1;
    uint32_t least = farthest;
    for (int i = 0; i < HELD; i++) {
        if (!feed->held[i].len) continue;
        uint32_t ahead = number_of(feed->held[i].bytes) - feed->expected;
        if (ahead <= least) best = i, least = ahead;
    }
    if (best < 0) return 0;
    take(feed, feed->held[best].bytes, feed->held[best].len);
    feed->held[best].len = 0;
    return 1;
}

/* The sender did not send it again: what is held is taken in order, behind a gap. Held duplicates are refused (35) and are gone too. */
static void give_up(Feed *feed) {
    printf("gave up waiting for %d\n", (int)feed->expected);
    while (take_held(feed, UINT32_MAX)) {}
}

static void arrive(Feed *feed, const uint8_t *block, size_t len) {
    uint32_t ahead = ahead_of(feed, block, len);
    if (ahead == 0) {
        take(feed, block, len);
        while (take_held(feed, 0)) {}
        return;
    }
    for (int i = 0; i < HELD; i++) {
        if (feed->held[i].len || len > QB_BLOCK_MAX) continue;
        memcpy(feed->held[i].bytes, block, len);
        feed->held[i].len = len;
        printf("  held: asking for %d to %d\n", (int)feed->expected, (int)(feed->expected + ahead - 1));
        return;
    }
    give_up(feed); /* no place is free */
    take(feed, block, len);
}

/* One quote under this number, as the line would bring it. */
static void send(Feed *feed, uint32_t sequence) {
    uint8_t quote[QUOTE_LEN], block[QB_BLOCK_MAX];
    Side bid = {10000000 + 10000 * (uint64_t)sequence, 3}, offer = {20000000, 2};
    put_quote(quote, 'N', sequence, "ZT", bid, offer);
    printf("block %d came\n", (int)sequence);
    arrive(feed, block, put_block(block, quote, QUOTE_LEN, sequence));
}

int main(void) {
    Feed *feed = (Feed *)calloc(1, sizeof *feed);
    uint8_t symbol[QB_SYMBOL_LEN], publication[QB_PUBLICATION_LEN];
    put_symbol(symbol, "ZT");
    if (!feed) return 1;
    feed->len = (size_t)qb_book_len(1);
    feed->book = (uint8_t *)malloc(feed->len);
    feed->expected = 1;
    if (!feed->book || qb_make(feed->book, feed->len, 1) || qb_add_symbol(feed->book, feed->len, symbol, sizeof symbol, 100, 'N')
        || qb_open_line(feed->book, feed->len, LINE, 'N') || qb_start_day(feed->book, feed->len)) return 1;
    send(feed, 1);
    send(feed, 4);                                      /* 2 and 3 are missing */
    send(feed, 3);                                      /* sent again, in any order */
    send(feed, 2);                                      /* now 2, 3 and 4 are taken */
    send(feed, 3);                                      /* a second copy */
    send(feed, 7);                                      /* 5 and 6 never come */
    give_up(feed);                                      /* a timer of yours has run out */
    if (qb_read(feed->book, feed->len, symbol, sizeof symbol, publication, sizeof publication)) return 1;
    printf("best bid %.2f\n", (double)qb_entry_price(publication, QB_ENTRY_NATIONAL_BID) / 1e6);
    free(feed->book);
    free(feed);
    return 0;
}
