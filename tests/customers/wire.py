"""The worked block of docs/WIRE.md: the bytes printed there are those that its fields make, and the library answers with the bytes printed there."""
import os
import re
import struct
import sys

from quotebook import Book, Publication, write_block

root = os.path.join(os.path.dirname(os.path.abspath(__file__)), "..", "..")
with open(os.path.join(root, "docs", "WIRE.md")) as file:
    text = file.read().split("## A worked block")[1]

# A dump begins with a line of offset 0; the answer bytes stand on a line of their own, without an offset.
dumps = []
for line in text.splitlines():
    found = re.fullmatch(r" +(\d+)  ((?:[0-9a-f]{2} ?)+)", line)
    if found:
        if found[1] == "0":
            dumps.append(bytearray())
        dumps[-1] += bytes.fromhex(found[2])
block, publication = map(bytes, dumps)
answer = bytes.fromhex(re.search(r"\n    ((?:[0-9a-f]{2} +)+[0-9a-f]{2})\n", text)[1])
report = [int(n) for n in re.search(r"The report is ([0-9, ]+):", text)[1].split(",")]
packs = [re.search(r'struct\.pack\("(>[^"]+)", b"%s"' % kind, text)[1] for kind in ("QKN", "QMN")]

time, symbol = 34_200_000_000_000, b"ZT".ljust(11)
quote = struct.pack(packs[0], b"QKN", time, 0, symbol, b"R", 10_000_000, 3, 10_020_000, 2, b" ", 0, 0)
odd_lot = struct.pack(packs[1], b"QMN", time, 0, symbol, b" ", 1, 0, 10_010_000, 40)
assert write_block([quote, odd_lot], 1) == block, "the block"

book = Book(1)
book.add_symbol("ZT", 100, "N")
book.open_line(5, "N")
book.start_day()
taken = book.take_block(5, block)
assert list(taken.report) == report, taken.report
assert b"".join(bytes(one) + b"\0" for one in taken.answers) == answer, taken.answers
assert book.read("ZT") == Publication.from_bytes(publication), book.read("ZT")
sys.exit(0)
