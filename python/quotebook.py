"""The quote book from Python: the proved library's calls by ctypes. The standard library is all it needs.

A book takes blocks of quotes on lines and publishes each symbol's best prices. docs/WIRE.md has the bytes of blocks and messages; with `struct`
a message is one line.

>>> import struct
>>> symbol = b"ZT".ljust(11)
>>> quote = struct.pack(">3sxQQ11scQIQIcBBx", b"QKN", 34_200_000_000_000, 0, symbol, b"R", 10_000_000, 3, 10_020_000, 2, b" ", 0, 0)
>>> book = Book(1)                              # room for one symbol
>>> book.add_symbol("ZT", 100, "N")             # round lots of 100 shares; N may halt it
>>> book.open_line(5, "N")
>>> book.start_day()
>>> taken = book.take_block(5, write_block([quote], 1))
>>> taken.report
Report(number=0, gap=0, expected=2, count=1, accepted=1, partly=0, rejected=0)
>>> taken.answers
[Answer(index=0, code=0, flags=3)]
>>> best = book.read("ZT")
>>> best.national_bid
Entry(name='N', condition='R', reason=None, price=10000000, size=3)
>>> str(best.national_offer), best.odd_bid
('N R 10.02 x 2', None)
>>> book.is_protected("ZT", "B", price("10.00"))
Protected(yes=True, looked=14)
>>> book.try_order("ZT", "B", 3)                # what would 3 lots to buy take?
Trial(steps=[Step(letter='N', price=10020000, lots=2)], unfilled=1)

A refused call changes nothing and raises Refused, which says why:

>>> book.read("IBM")
Traceback (most recent call last):
    ...
quotebook.Refused: The symbol is malformed or not listed. (10)
>>> book.line(5)                                # what the line expects next, and how many messages it has had
(2, 1)

A book's bytes can be kept, and taken up again by a library of the same version:

>>> again = Book.from_bytes(bytes(book))
>>> again.read("ZT") == best
True

A Book is for one thread at a time.
"""

import ctypes
import decimal
import os
from ctypes import POINTER, c_char_p, c_size_t, c_uint8, c_uint32, c_uint64, c_void_p
from typing import Dict, List, NamedTuple, Optional, Tuple, Union

ANSWER_LEN = 180
BLOCK_MAX = 1000
ENTRY_LEN = 16
PUBLICATION_LEN = 96
RUN_MAX = 3600
SNAPSHOT_MAX = 1706
STEP_LEN = 13
STEPS_LEN = 325
SHARES_LEN = 64
SYMBOL_LEN = 11

DONE = 0
GAP = 70

# Room for many answers of a replay; one has 3,696 bytes at most.
_REPLAY_LEN = 65536

# What a call answers: number, name, sentence, as in the C header and in Rust.
NUMBERS = {
    0: ("DONE", "The call was done."),
    1: ("NO_BOOK", "The memory is not a book: its opening or its length is wrong."),
    2: ("MAKE", "A book has room for 1 to 64 symbols, in memory of exactly that length."),
    3: ("SYMBOL_MALFORMED", "The symbol is not A to Z, then printable bytes, then spaces, eleven bytes in all."),
    4: ("SYMBOL_LISTED", "The symbol is already listed."),
    5: ("BOOK_FULL", "As many symbols are listed as the book has room for."),
    6: ("ROUND_LOT", "The round lot is not 1, 10, 25, 50 or 100 shares."),
    7: ("LINE_OR_LETTER", "The line is above 63, or its letter is not A to Z without S."),
    8: ("LINE_OPEN", "The line is already open."),
    9: ("BUFFER_SHORT", "The answer buffer is under 180 bytes, or the publication buffer under 96."),
    10: ("SYMBOL_UNKNOWN", "The symbol is malformed or not listed."),
    11: ("DAY_OPEN", "The day is already open."),
    12: ("DAY_NOT_OPEN", "The day is not open."),
    20: ("BLOCK_WHILE_CLOSED", "The block came while the day was not open."),
    21: ("LINE_NOT_OPEN", "The block's line is above 63 or not open."),
    30: ("BLOCK_LENGTH", "The block's length is under 32, over 1,000 or not what its length field says."),
    31: ("VERSION", "The block's version is not 1."),
    32: ("CHECKSUM", "The block's checksum is wrong."),
    33: ("OFFSETS", "The block's message count is not 1 to 45, or its offsets break a rule."),
    34: ("CONTROL_NOT_ALONE", "A control message is not alone in its block."),
    35: ("DUPLICATE", "The block is a duplicate: its sequence number lies behind the expected one."),
    70: ("GAP", "The block was taken, and sequence numbers before it are missing."),
    71: ("WRITE_MESSAGES", "No messages, over 45, one under 20 bytes, lengths that do not add up, or a block over 1,000."),
    72: ("WRITE_CONTROL", "A control message among others: it has to be alone in its block."),
    73: ("WRITE_SHORT", "The output is shorter than the block to write."),
    74: ("SIDE", "The side mark is not B or S."),
    75: ("PRIMARY", "The primary letter is not A to Z, or it is S."),
    78: ("VENUE_BLOCK", "The venue's block breaks a rule of its form."),
    79: ("VENUE_UNPLACED", "A message of the venue's block has no place here: its type, letter, condition or length."),
    80: ("CONVERT_SHORT", "The output is shorter than the run to write."),
    81: ("SNAPSHOT_SHORT", "The output is shorter than the snapshot."),
    82: ("LOTS", "The lots are not 1 to 1,000,000."),
    83: ("STEPS_SHORT", "The output is under 325 bytes."),
    84: ("ALLOWANCE", "The blocks for a tick are not 1 to 255."),
    85: ("SHARES", "There are not 64 shares, or their sum is above the blocks for a tick."),
    86: ("USED_UP", "The share of the block's line and the spare are used in this tick."),
    90: ("LOG_HEAD", "The log does not begin with a head."),
    91: ("LOG_CUT", "The log ends inside a record: it was cut, or the record's length is damaged."),
    92: ("LOG_DAMAGED", "A record of the log is damaged: its check, its length, its kind or its arguments."),
    93: ("LOG_ROOM", "The output may be too short for one more answer."),
}

# What became of a message: code, name, sentence.
CODES = {
    0: ("ACCEPTED", "The message was accepted."),
    40: ("UNKNOWN_TYPE", "The category and type are unknown."),
    41: ("LETTER", "The letter is not the line's."),
    42: ("LENGTH", "The length is not its type's."),
    43: ("FIXED_BYTE", "A byte that must be zero is not, or a test byte is wrong."),
    44: ("WRONG_LINE", "Close, Open, makers and odd lots of FINRA go on D's line only, other quotes on any other."),
    45: ("SYMBOL", "The symbol is malformed or not listed."),
    46: ("CONDITION", "The condition is not one that the type takes."),
    47: ("SIZE_WITHOUT_PRICE", "A side has a size and no price."),
    48: ("MAKER", "The maker's name is not one to four letters A to Z, then spaces."),
    49: ("MAKERS_FULL", "Sixteen makers stand already, and this is another."),
    60: ("CLEAR_MARK", "The clear mark is not a space, B, S or X."),
    61: ("ITEM_COUNT", "There are more than four odd bids or more than four odd offers."),
    62: ("ITEM_PRICE", "An odd item has price 0."),
    63: ("ITEM_SHARES", "An odd item has a round lot of shares or more."),
    64: ("FIFTH_LEVEL", "An odd item would make a fifth level."),
    76: ("NOT_PRIMARY", "The line's letter is not the symbol's primary letter, which alone may halt it."),
    77: ("STATUS", "The trading status is not H (halted) or T (trading)."),
}


def sentence(number: int) -> str:
    """One plain sentence for a number that a call answers.

    >>> sentence(35)
    'The block is a duplicate: its sequence number lies behind the expected one.'
    """
    return NUMBERS[number][1]


def code_sentence(code: int) -> str:
    """One plain sentence for a message's code."""
    return CODES[code][1]


def is_taken(number: int) -> bool:
    """Whether a call did what it was asked. 70 is a warning: the block was taken, behind a gap.

    >>> is_taken(0), is_taken(70), is_taken(35)
    (True, True, False)
    """
    return number in (DONE, GAP)


def price(text) -> int:
    """A decimal price in millionths, exactly.

    >>> price("10.02")
    10020000
    """
    millionths = decimal.Decimal(text).scaleb(6)
    if millionths != int(millionths) or not 0 <= millionths < 2**64:
        raise ValueError("a price has up to six decimals and fits 8 bytes in millionths: %s" % text)
    return int(millionths)


def price_text(millionths: int) -> str:
    """Millionths as a decimal with two to six decimals.

    >>> price_text(10020000), price_text(10000001)
    ('10.02', '10.000001')
    """
    whole, rest = divmod(millionths, 1_000_000)
    decimals = "%06d" % rest
    return "%d.%s%s" % (whole, decimals[:2], decimals[2:].rstrip("0"))


class Refused(Exception):
    """A refused call, which changed nothing: its number, and for a block the line's expected number and count."""

    def __init__(self, number: int, expected: int = 0, count: int = 0):
        super().__init__("%s (%d)" % (sentence(number), number))
        self.number = number
        self.expected = expected
        self.count = count


class Entry(NamedTuple):
    """A published entry. The price is in millionths; the size is in round lots, or the shares of an odd lot."""

    name: str  # the letter, or a FINRA entry's maker
    condition: Optional[str]  # of a national entry
    reason: Optional[str]  # what put a national entry ahead of the second best: P, S, T or L
    price: int
    size: int

    def __str__(self) -> str:
        shown = [self.name] + ([self.condition] if self.condition else []) + [price_text(self.price), "x", str(self.size)]
        return " ".join(shown)


class Publication(NamedTuple):
    """The six best entries of a symbol; None where there is none."""

    national_bid: Optional[Entry]
    national_offer: Optional[Entry]
    finra_bid: Optional[Entry]
    finra_offer: Optional[Entry]
    odd_bid: Optional[Entry]
    odd_offer: Optional[Entry]

    @classmethod
    def from_bytes(cls, data: bytes) -> "Publication":
        """Decodes the 96 bytes of a read."""
        entries = [data[at : at + ENTRY_LEN] for at in range(0, PUBLICATION_LEN, ENTRY_LEN)]
        return cls(*(_entry(entry, k < 2) for k, entry in enumerate(entries)))


def _entry(data: bytes, national: bool) -> Optional[Entry]:
    if data == b"    " + bytes(12):
        return None
    name = data[:4].decode("latin-1")
    condition = name[1] if national else None
    reason = name[2] if national and name[2] != " " else None
    shown = name[0] if national else name.rstrip(" ")
    return Entry(shown, condition, reason, int.from_bytes(data[4:12], "big"), int.from_bytes(data[12:16], "big"))


class Report(NamedTuple):
    """What the block call reports of a taken block."""

    number: int
    gap: int
    expected: int
    count: int
    accepted: int
    partly: int
    rejected: int


class Answer(NamedTuple):
    """What became of one message: its place in the block, its code, and the flags of the entries that it changed.

    Flags: 1 national bid, 2 national offer, 4 FINRA bid, 8 FINRA offer, 16 odd bid, 32 odd offer. For FINRA Open and Close they concern any symbol.
    """

    index: int
    code: int
    flags: int


class Taken(NamedTuple):
    """A taken block."""

    report: Report
    answers: List[Answer]


class Protected(NamedTuple):
    """Whether a price is protected, and how many letters were looked at: A is 1; 26 for no."""

    yes: bool
    looked: int


class Step(NamedTuple):
    """One step of an order: so many round lots from an exchange, at its price in millionths."""

    letter: str
    price: int
    lots: int


class Trial(NamedTuple):
    """An order that was tried: its steps, in order, and the round lots that nobody shows."""

    steps: List[Step]
    unfilled: int


_BOOK = [c_void_p, c_size_t]
_BYTES = [c_char_p, c_size_t]
_OUT = [c_void_p, c_size_t]
_REPORT = [POINTER(c_uint64)]
_CALLS = {
    "qb_make": _BOOK + [c_uint32],
    "qb_add_symbol": _BOOK + _BYTES + [c_uint32, c_uint8],
    "qb_open_line": _BOOK + [c_uint32, c_uint8],
    "qb_start_day": _BOOK,
    "qb_end_day": _BOOK,
    "qb_set_allowance": _BOOK + [c_uint32] + _BYTES,
    "qb_tick": _BOOK,
    "qb_take_block": _BOOK + [c_uint32] + _BYTES + _OUT + _REPORT,
    "qb_read": _BOOK + _BYTES + _OUT,
    "qb_is_protected": _BOOK + _BYTES + [c_uint8, c_uint64] + _REPORT,
    "qb_convert_len": _BOOK + _BYTES + _REPORT,
    "qb_convert": _BOOK + _BYTES + _OUT + _REPORT,
    "qb_snapshot": _BOOK + _BYTES + _OUT + _REPORT,
    "qb_snapshot_len": _BOOK + _BYTES + _REPORT,
    "qb_try_order": _BOOK + _BYTES + [c_uint8, c_uint32] + _OUT + _REPORT,
    "qb_log_head": _BYTES + _REPORT,
    "qb_replay": _BOOK + _BYTES + [c_size_t] + _OUT + _REPORT,
    "qb_restore": _BOOK + _BYTES + _OUT + _REPORT,
    "qb_write_block": _BYTES + [POINTER(c_uint32), c_size_t, c_uint32] + _OUT + _REPORT,
}


def _load() -> ctypes.CDLL:
    """The shared library: the one that QUOTEBOOK_LIBRARY names, that of this folder's install or build, or the system's."""
    here = os.path.dirname(os.path.abspath(__file__))
    name = "libquotebook.so"
    nearby = [os.path.join(here, "..", "..", "..", "lib", name), os.path.join(here, "..", "target", "sharedlib", name)]
    named = os.environ.get("QUOTEBOOK_LIBRARY")
    found = named or next((path for path in nearby if os.path.exists(path)), name)
    library = ctypes.CDLL(found)
    for call, arguments in _CALLS.items():
        function = getattr(library, call)
        function.argtypes = arguments
        function.restype = c_uint8
    library.qb_version.restype = c_uint32
    library.qb_book_len.argtypes = [c_uint32]
    library.qb_book_len.restype = c_uint64
    return library


_library = _load()


def version() -> int:
    """The library's version, 10000 * major + 100 * minor + patch."""
    return _library.qb_version()


def _symbol(symbol) -> bytes:
    """Text or bytes, filled up with spaces. What is too long is refused by its length."""
    return (symbol.encode("latin-1") if isinstance(symbol, str) else bytes(symbol)).ljust(SYMBOL_LEN)


def _fits(number: int, bits: int) -> int:
    """The number, if the parameter can hold it: ctypes would cut it."""
    if not 0 <= number < 1 << bits:
        raise ValueError("%d is not a number of %d bits" % (number, bits))
    return number


def _split(run: bytes, at: int) -> List[bytes]:
    """Blocks that stand end to end, each with its length in two bytes at this place."""
    blocks = []
    while run:
        size = int.from_bytes(run[at : at + 2], "big")
        blocks.append(run[:size])
        run = run[size:]
    return blocks


def _mark(letter) -> int:
    """A letter or a side mark: text or a byte's number."""
    return _fits(ord(letter) if isinstance(letter, (str, bytes)) else letter, 8)


def _checked(number: int, expected: int = 0, count: int = 0) -> None:
    if not is_taken(number):
        raise Refused(number, expected, count)


class Book:
    """A book for n symbols, n 1 to 64: no symbols, no lines, a closed day."""

    def __init__(self, n: int):
        size = _library.qb_book_len(_fits(n, 32))
        self._adopt(bytes(size))
        self.make(n)

    @classmethod
    def from_bytes(cls, data: bytes) -> "Book":
        """The book whose bytes were kept. Other bytes are refused (1); whether a book of another version is, docs/CHANGES.md tells."""
        book = cls.__new__(cls)
        book._adopt(data)
        out = ctypes.create_string_buffer(PUBLICATION_LEN)
        if _library.qb_read(*book._lent, b"", 0, out, PUBLICATION_LEN) == 1:
            raise Refused(1)
        return book

    @classmethod
    def restore(cls, log: bytes) -> "Tuple[Book, int, int]":
        """The book that a log of calls (docs/LOG.md) leaves, the number that its reading stopped with (0 at its end, 91 cut, 92 damaged) and
        the place. A log without a head is refused (90).

        >>> log = bytes.fromhex("51424f4f4b4c4f4701013fff626f31e2"
        ...                     "000000110400000000000000001ce7dd10")  # a head for one symbol, then Start of Day
        >>> book, number, place = Book.restore(log)
        >>> number, place
        (0, 33)
        >>> book.end_day()
        >>> Book.restore(log[:-1])[1:]
        (91, 16)
        """
        report = (c_uint64 * 3)()
        _checked(_library.qb_log_head(log, len(log), report))
        book = cls.__new__(cls)
        book._adopt(bytes(_library.qb_book_len(report[1])))
        output = ctypes.create_string_buffer(_REPLAY_LEN)
        number = _library.qb_restore(*book._lent, log, len(log), output, _REPLAY_LEN, report)
        while number == 93:
            number = _library.qb_replay(*book._lent, log, len(log), report[1], output, _REPLAY_LEN, report)
        if number not in (0, 91, 92):
            raise Refused(number)
        return book, number, report[1]

    def _adopt(self, data: bytes) -> None:
        self._memory = ctypes.create_string_buffer(data, max(len(data), 1))
        self._lent = (ctypes.cast(self._memory, c_void_p), len(data))

    def __bytes__(self) -> bytes:
        return self._memory.raw[: self._lent[1]]

    def make(self, n: int) -> None:
        """Makes the book anew, of the same n: its symbols, lines and quotes are forgotten, open day or not."""
        _checked(_library.qb_make(*self._lent, _fits(n, 32)))

    def add_symbol(self, symbol, round_lot: int, primary) -> None:
        """Lists a symbol with its round lot in shares and its primary letter, whose lines alone may halt it."""
        name = _symbol(symbol)
        _checked(_library.qb_add_symbol(*self._lent, name, len(name), _fits(round_lot, 32), _mark(primary)))

    def open_line(self, line: int, letter) -> None:
        """Opens a line, 0 to 63, for a letter. D is FINRA."""
        _checked(_library.qb_open_line(*self._lent, _fits(line, 32), _mark(letter)))

    def start_day(self) -> None:
        """Start of Day: forgets all quotes, ends every halt, sets every line to sequence number 1, opens the day."""
        _checked(_library.qb_start_day(*self._lent))

    def end_day(self) -> None:
        """End of Day: closes the day and keeps the quotes."""
        _checked(_library.qb_end_day(*self._lent))

    def set_allowance(self, blocks: int, shares: Union[bytes, Dict[int, int]]) -> None:
        """Sets an allowance of blocks for each tick, 1 to 255, with a share for each line, and starts a tick.

        The shares are 64 bytes, or those of some lines by their numbers; the others have none. What the blocks have above all shares is the
        spare, for any line.

        >>> book = Book(1)
        >>> book.set_allowance(100, {5: 40, 7: 20})
        >>> book.set_allowance(100, {5: 40, 7: 61})
        Traceback (most recent call last):
            ...
        quotebook.Refused: There are not 64 shares, or their sum is above the blocks for a tick. (85)
        """
        if isinstance(shares, dict):
            shares = bytes(shares.get(line, 0) for line in range(max(SHARES_LEN, 1 + max(shares, default=0))))
        _checked(_library.qb_set_allowance(*self._lent, _fits(blocks, 32), bytes(shares), len(shares)))

    def tick(self) -> None:
        """Starts the next tick: nothing is charged in it yet. Without an allowance nothing changes."""
        _checked(_library.qb_tick(*self._lent))

    def take_block(self, line: int, block: bytes) -> Taken:
        """Takes a block on a line. Behind a gap it is taken too: the report's number is then 70."""
        report = (c_uint64 * 7)()
        answer = ctypes.create_string_buffer(ANSWER_LEN)
        number = _library.qb_take_block(*self._lent, _fits(line, 32), bytes(block), len(block), answer, ANSWER_LEN, report)
        told = Report(*report)
        _checked(number, told.expected, told.count)
        messages = told.accepted + told.partly + told.rejected
        raw = answer.raw
        return Taken(told, [Answer(*raw[4 * i : 4 * i + 3]) for i in range(messages)])

    def line(self, line: int):
        """The line's next expected number and its count of messages. (An empty block is refused with them, and changes nothing.)"""
        try:
            self.take_block(line, b"")
        except Refused as refused:
            if refused.number != 30:
                raise
            return refused.expected, refused.count

    def read(self, symbol) -> Publication:
        """A symbol's six best entries."""
        name = _symbol(symbol)
        out = ctypes.create_string_buffer(PUBLICATION_LEN)
        _checked(_library.qb_read(*self._lent, name, len(name), out, PUBLICATION_LEN))
        return Publication.from_bytes(out.raw)

    def is_protected(self, symbol, side, millionths: int) -> Protected:
        """Does an exchange, or FINRA, bid the price or more (side B), or offer it or less (side S)?"""
        name = _symbol(symbol)
        report = (c_uint64 * 3)()
        _checked(_library.qb_is_protected(*self._lent, name, len(name), _mark(side), _fits(millionths, 64), report))
        return Protected(report[1] == 1, report[2])

    def try_order(self, symbol, side, lots: int) -> Trial:
        """Plays an order of 1 to 1,000,000 round lots: side B buys at the offers, S sells at the bids."""
        name = _symbol(symbol)
        report = (c_uint64 * 3)()
        out = ctypes.create_string_buffer(STEPS_LEN)
        _checked(_library.qb_try_order(*self._lent, name, len(name), _mark(side), _fits(lots, 32), out, STEPS_LEN, report))
        steps = [out.raw[at : at + STEP_LEN] for at in range(0, STEP_LEN * report[1], STEP_LEN)]
        return Trial([Step(chr(one[0]), int.from_bytes(one[1:9], "big"), int.from_bytes(one[9:], "big")) for one in steps], report[2])

    def snapshot(self, symbol) -> List[bytes]:
        """The blocks of a symbol's snapshot (source document 002), for subscribers that recover from a failure."""
        name = _symbol(symbol)
        size = (c_uint64 * 2)()
        out = ctypes.create_string_buffer(SNAPSHOT_MAX)
        _checked(_library.qb_snapshot(*self._lent, name, len(name), out, SNAPSHOT_MAX, size))
        return _split(out.raw[: size[1]], 1)

    def convert(self, block: bytes) -> List[bytes]:
        """A venue's own block as blocks for take_block, in order."""
        report = (c_uint64 * 2)()
        out = ctypes.create_string_buffer(RUN_MAX)
        _checked(_library.qb_convert(*self._lent, bytes(block), len(block), out, RUN_MAX, report))
        return _split(out.raw[: report[1]], 2)


def write_block(messages: List[bytes], sequence: int) -> bytes:
    """The block that carries these messages under a sequence number.

    >>> len(write_block([b"CTN" + bytes(17)], 1))
    32
    >>> write_block([b"CTN" + bytes(17)], 2**32)
    Traceback (most recent call last):
        ...
    ValueError: 4294967296 is not a number of 32 bits
    """
    lengths = (c_uint32 * max(len(messages), 1))(*map(len, messages))
    joined = b"".join(messages)
    report = (c_uint64 * 2)()
    out = ctypes.create_string_buffer(BLOCK_MAX)
    _checked(_library.qb_write_block(joined, len(joined), lengths, len(messages), _fits(sequence, 32), out, BLOCK_MAX, report))
    return out.raw[: report[1]]
