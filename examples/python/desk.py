"""Two exchanges quote ZT, and a desk asks. Written from README.md and docs/WIRE.md alone. Run it with python/ on the path."""
import struct

from quotebook import Book, Refused, price, price_text, write_block

book = Book(1)
book.add_symbol("ZT", 100, "N")
book.open_line(5, "N")
book.open_line(7, "P")
book.start_day()
for line, sequence, header, bid, bid_lots, offer, offer_lots in [
    (5, 1, b"QKN", "10.00", 3, "10.02", 2),
    (7, 1, b"QKP", "10.01", 5, "10.03", 1),
    (5, 5, b"QKN", "10.00", 3, "10.02", 4),
    (7, 1, b"QKP", "10.01", 5, "10.03", 1),
]:
    sides = price(bid), bid_lots, price(offer), offer_lots
    quote = struct.pack(">3sxQQ11scQIQIcBBx", header, 34_200_000_000_000, 0, b"ZT".ljust(11), b"R", *sides, b" ", 0, 0)
    try:
        report = book.take_block(line, write_block([quote], sequence)).report
        print("line %d: taken, gap %d, %d is next" % (line, report.gap, report.expected))
    except Refused as refused:
        print("line %d: %s" % (line, refused))
best = book.read("ZT")
for what, entry in ("bid", best.national_bid), ("offer", best.national_offer):
    print(what, entry.name, price_text(entry.price), "x", entry.size)
told = book.is_protected("ZT", "B", price("10.01"))
print("10.01 is bid: %s, %d letters looked at" % (str(told.yes).lower(), told.looked))
