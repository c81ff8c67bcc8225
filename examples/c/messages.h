/* Messages that the examples send, built byte by byte from docs/WIRE.md. */
#ifndef MESSAGES_H
#define MESSAGES_H

#include <stdint.h>
#include <string.h>
#include "quotebook.h"

enum { QUOTE_LEN = 60, STATUS_LEN = 32, CONTROL_LEN = 20 };

/* Writes a big-endian number of len bytes. */
static inline void put(uint8_t *at, int len, uint64_t number) {
    while (len-- > 0) {
        at[len] = (uint8_t)number;
        number >>= 8;
    }
}

/* Category, type, letter, zero, timestamp, reference number. */
static inline void put_header(uint8_t *message, const char *type, char letter, uint64_t time) {
    memset(message, 0, 20);
    memcpy(message, type, 2);
    message[2] = (uint8_t)letter;
    put(message + 4, 8, time);
}

/* Eleven bytes: the text, then spaces. */
static inline void put_symbol(uint8_t symbol[QB_SYMBOL_LEN], const char *text) {
    memset(symbol, ' ', QB_SYMBOL_LEN);
    for (int i = 0; i < QB_SYMBOL_LEN && text[i]; i++) symbol[i] = (uint8_t)text[i];
}

typedef struct {
    uint64_t price; /* six implied decimals */
    uint32_t lots;
} Side;

/* A round-lot quote (Q K) without odd lots, condition R. */
static inline void put_quote(uint8_t quote[QUOTE_LEN], char letter, uint64_t time, const char *symbol, Side bid, Side offer) {
    put_header(quote, "QK", letter, time);
    put_symbol(quote + 20, symbol);
    quote[31] = 'R';
    put(quote + 32, 8, bid.price);
    put(quote + 40, 4, bid.lots);
    put(quote + 44, 8, offer.price);
    put(quote + 52, 4, offer.lots);
    memcpy(quote + 56, " \0\0\0", 4); /* clears no odd lots, has none */
}

/* The block that carries one message; its length. */
static inline size_t put_block(uint8_t block[QB_BLOCK_MAX], const uint8_t *message, uint32_t len, uint32_t sequence) {
    uint64_t written[2];
    qb_write_block(message, len, &len, 1, sequence, block, QB_BLOCK_MAX, written);
    return (size_t)written[1];
}

#endif
