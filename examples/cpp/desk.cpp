// Two exchanges quote ZT, and a desk asks. Written from README.md, quotebook.h and docs/WIRE.md alone.
#include <cstdio>
#include <string>
#include <vector>
#include "quotebook.h"

static const std::string zt = "ZT         ";
static const uint8_t *bytes(const std::string &text) { return reinterpret_cast<const uint8_t *>(text.data()); }
static std::string be(uint64_t number, int len) { return len ? be(number >> 8, len - 1) + char(number) : std::string(); }

int main() {
    std::vector<uint8_t> memory(qb_book_len(1));
    uint8_t *book = memory.data(), block[QB_BLOCK_MAX], answer[QB_ANSWER_LEN], best[QB_PUBLICATION_LEN];
    uint64_t written[2], report[QB_REPORT_LEN], told[QB_PROTECTED_LEN];
    const size_t len = memory.size();
    if (qb_make(book, len, 1) || qb_add_symbol(book, len, bytes(zt), zt.size(), 100, 'N') || qb_open_line(book, len, 5, 'N')
        || qb_open_line(book, len, 7, 'P') || qb_start_day(book, len)) return 1;
    const struct { uint32_t line, sequence; char letter; uint64_t bid, bid_lots, offer, offer_lots; } quotes[] = {
        {5, 1, 'N', 10000000, 3, 10020000, 2}, {7, 1, 'P', 10010000, 5, 10030000, 1},
        {5, 5, 'N', 10000000, 3, 10020000, 4}, {7, 1, 'P', 10010000, 5, 10030000, 1}};
    for (const auto &q : quotes) {
        std::string quote = std::string("QK") + q.letter + be(0, 1) + be(34200000000000, 8) + be(0, 8) + zt + "R" + be(q.bid, 8) + be(q.bid_lots, 4)
            + be(q.offer, 8) + be(q.offer_lots, 4) + " " + be(0, 3);
        const uint32_t size = uint32_t(quote.size());
        qb_write_block(bytes(quote), size, &size, 1, q.sequence, block, sizeof block, written);
        uint8_t number = qb_take_block(book, len, q.line, block, written[1], answer, sizeof answer, report);
        if (qb_taken(number)) std::printf("line %u: taken, gap %d, %d is next\n", q.line, int(report[QB_REPORT_GAP]), int(report[QB_REPORT_EXPECTED]));
        else std::printf("line %u: %s (%d)\n", q.line, qb_sentence(number), number);
    }
    if (qb_read(book, len, bytes(zt), zt.size(), best, sizeof best) || qb_is_protected(book, len, bytes(zt), zt.size(), 'B', 10010000, told)) return 1;
    for (int k = QB_ENTRY_NATIONAL_BID; k <= QB_ENTRY_NATIONAL_OFFER; k++)
        std::printf("%s %c %.2f x %u\n", k ? "offer" : "bid", qb_entry(best, k)[0], double(qb_entry_price(best, k)) / 1e6, qb_entry_size(best, k));
    std::printf("10.01 is bid: %s, %d letters looked at\n", told[QB_PROTECTED_YES] ? "true" : "false", int(told[QB_PROTECTED_LOOKED]));
}
