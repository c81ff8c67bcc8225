// The same walk in plain C, over the same bytes: the yardstick of walk.rs. Letters in order, both sides together, D with its makers' best at
// its place, one odd cell for each letter and side, which ranks as T-07 says; what put the national leader ahead (T-08). It looks at every quote; a
// letter's side whose key is not its own has none.
#include <stdint.h>
#include <string.h>

enum { SLOTS = 360, SLOT = 201, CELLS = 5586, CELL = 45, ENTRIES = 264, STATUS = 6306, KEYS = 6307, ROW = 104 };

typedef struct {
    uint64_t price, time;
    uint32_t size, name;
    uint8_t condition;
    uint8_t decided; // a national one: how late its comparison with the second best was decided, 0 without a second
} Best;

static inline uint64_t get64(const uint8_t *p) { uint64_t v; memcpy(&v, p, 8); return __builtin_bswap64(v); }
static inline uint32_t get32(const uint8_t *p) { uint32_t v; memcpy(&v, p, 4); return __builtin_bswap32(v); }
static inline void put64(uint8_t *p, uint64_t v) { v = __builtin_bswap64(v); memcpy(p, &v, 8); }
static inline void put32(uint8_t *p, uint32_t v) { v = __builtin_bswap32(v); memcpy(p, &v, 4); }

// a level's numbers have their lowest byte first
static inline uint64_t low64(const uint8_t *p) { uint64_t v; memcpy(&v, p, 8); return v; }
static inline uint32_t low32(const uint8_t *p) { uint32_t v; memcpy(&v, p, 4); return v; }

static inline uint64_t rank(int bid, uint64_t price) { return bid ? price : 0 - price; }

// the key of a price that counts: of a bid the price, at most 2^32 - 1, of an offer 2^32 less that
static inline uint32_t key(int bid, uint64_t price) {
    uint32_t k = price < UINT32_MAX ? price : UINT32_MAX;
    return bid ? k : 0 - k;
}

static inline int admits(int bid, uint8_t c) {
    switch (c) {
    case 'A': case 'B': case 'H': case 'O': case 'R': case 'W': return 1;
    case 'E': return !bid;
    case 'F': return bid;
    default: return 0;
    }
}

static inline int wins(const Best *b, uint32_t size, uint64_t time, uint32_t name) {
    if (size != b->size) return size > b->size;
    if (time != b->time) return time < b->time;
    return name < b->name;
}

// whether a letter's odd lots rank: D's while its FINRA best has that side, another letter's by its condition, 0 being no quote
static inline int ranks(int bid, uint8_t condition, uint32_t name, const Best *finra) {
    return name == 'D' ? finra->price != 0 : condition == 0 || admits(bid, condition);
}

// a side of a quote, whose condition must admit it; with a FINRA best a letter's odd lots, which must rank and have their key at k
static inline void take(const uint8_t *p, const uint8_t *k, int bid, uint8_t condition, uint32_t name, const Best *finra, Best *b) {
    uint64_t price = low64(p), r = rank(bid, price), top = rank(bid, b->price);
    if (r < top || price == 0) return;
    if (finra ? !ranks(bid, condition, name, finra) || low32(k) != key(bid, price) : !admits(bid, condition)) return;
    uint32_t size = low32(p + 8);
    uint64_t time = low64(p + 12);
    if (size == 0) return;
    if (r > top || wins(b, size, time, name)) *b = (Best){price, time, size, name, finra ? ' ' : condition, 0};
}

// a national candidate beside the leader: 1 by price, 2 by size, 3 by time, 4 by letter; of the losers the latest counts
static inline void lead(int bid, Best x, Best *b) {
    uint64_t r = rank(bid, x.price), top = rank(bid, b->price);
    int ahead = 1;
    if (b->price == 0) x.decided = 0;
    else if (r != top) ahead = r > top, x.decided = 1;
    else if (x.size != b->size) ahead = x.size > b->size, x.decided = 2;
    else if (x.time != b->time) ahead = x.time < b->time, x.decided = 3;
    else ahead = x.name < b->name, x.decided = 4;
    if (ahead) *b = x;
    else if (b->decided < x.decided) b->decided = x.decided;
}

// a letter's quote, with its key at k
static inline void take_lead(const uint8_t *p, const uint8_t *k, int bid, uint8_t condition, uint32_t name, Best *b) {
    uint64_t price = low64(p);
    uint32_t size = low32(p + 8);
    if (price == 0 || size == 0 || !admits(bid, condition) || low32(k) != key(bid, price)) return;
    lead(bid, (Best){price, low64(p + 12), size, name, condition, 0}, b);
}

static inline void take_d(int bid, const Best *f, Best *b) {
    if (f->price == 0) return;
    Best d = *f;
    d.name = 'D';
    lead(bid, d, b);
}

static inline void take_makers(const uint8_t *page, Best e[6]) {
    for (int i = 0; i < 16; i++) {
        const uint8_t *c = page + CELLS + i * CELL;
        if (c[4] != 'L' && c[4] != 'R') continue;
        uint32_t name = get32(c);
        take(c + 5, 0, 1, c[4], name, 0, &e[2]);
        take(c + 25, 0, 0, c[4], name, 0, &e[3]);
    }
}

static inline void walk(const uint8_t *page, Best e[6]) {
    Best none = {0}, odd[2] = {none, none};
    for (int i = 0; i < 6; i++) e[i] = none;
    for (uint32_t l = 'A'; l <= 'Z'; l++) {
        const uint8_t *s = page + SLOTS + (l - 'A') * SLOT, *k = page + KEYS + (l - 'A') * 4;
        if (l == 'S') continue;
        if (l == 'D') {
            take_makers(page, e);
            take_d(1, &e[2], &e[0]);
            take_d(0, &e[3], &e[1]);
        } else {
            take_lead(s + 1, k, 1, s[0], l, &e[0]);
            take_lead(s + 21, k + ROW, 0, s[0], l, &e[1]);
        }
        take(s + 41, k + 2 * ROW, 1, s[0], l, &e[2], &odd[0]);
        take(s + 121, k + 3 * ROW, 0, s[0], l, &e[3], &odd[1]);
    }
    if (rank(1, e[0].price) < rank(1, odd[0].price)) e[4] = odd[0];
    if (rank(0, e[1].price) < rank(0, odd[1].price)) e[5] = odd[1];
}

uint64_t c_walk(const uint8_t *page) {
    Best e[6];
    uint64_t sum = 0;
    walk(page, e);
    for (int i = 0; i < 6; i++) sum += e[i].price + e[i].time + ((uint64_t)e[i].size << 24) + ((uint64_t)e[i].name << 16) + e[i].condition + ((uint64_t)e[i].decided << 32);
    return sum;
}

uint8_t c_renew(uint8_t *page) {
    Best e[6];
    uint8_t flags = 0;
    if (page[STATUS] == 'H') memset(e, 0, sizeof e); // halted: none
    else walk(page, e);
    for (int i = 0; i < 6; i++) {
        uint8_t *p = page + ENTRIES + 16 * i;
        uint32_t name = 0x20202020;
        if (e[i].price) name = i < 2 ? e[i].name << 24 | (uint32_t)e[i].condition << 16 | (uint32_t)" PSTL"[e[i].decided] << 8 | 0x20 : i < 4 ? e[i].name : e[i].name << 24 | 0x202020;
        if (get32(p) != name || get64(p + 4) != e[i].price || get32(p + 12) != e[i].size) flags |= 1 << i;
        put32(p, name);
        put64(p + 4, e[i].price);
        put32(p + 12, e[i].size);
    }
    return flags;
}
