//! Pages whose entries are not those of their quotes, as lent memory may have them. "An accepted part
//! leaves them as worked out from the page's quotes": in every page, whatever stood there. A rejected
//! message, a refused block and a message without a part leave even wrong entries.

mod support;

use std::ops::Range;

use quotebook::Publication;
use second::build::{self, Odd, Round};
use second::QuoteBook;
use support::damage::entry;
use support::guarded::Guarded;
use support::layout::{in_page, letter_keys, page, record, slot, ENTRIES, LEVELS, SLOTS};

/// The lines of N, P and D.
const N: u32 = 5;
const P: u32 = 6;
const D: u32 = 7;

const TEN: u64 = 10_000_000;
const CENT: u64 = 10_000;

/// The pages: ZT's, YY's and one that is not listed.
const ZT: usize = 0;
const YY: usize = 1;
const UNLISTED: usize = 2;
const ALL: [usize; 3] = [ZT, YY, UNLISTED];

const NOTHING: [&str; 6] = ["none"; 6];
const CLAIMED: [&str; 6] = [
    "B R 99.00 x 9",
    "B R 1.00 x 9",
    "none",
    "none",
    "none",
    "none",
];
/// What `quote` and `maker` bring.
const QUOTED: [&str; 6] = [
    "N R 10.00 x 3",
    "N R 10.02 x 2",
    "none",
    "none",
    "none",
    "none",
];
const MADE: [&str; 6] = [
    "D R 10.00 x 3",
    "D R 10.02 x 2",
    "MM 10.00 x 3",
    "MM 10.02 x 2",
    "none",
    "none",
];

/// A book of these three pages without a quote, and an open day.
fn book() -> Guarded {
    let mut book = Guarded::fresh(3);
    for symbol in ["ZT", "YY"] {
        assert_eq!(book.add_symbol(&build::symbol(symbol), 100, b'N'), 0);
    }
    for (line, letter) in [(N, b'N'), (P, b'P'), (D, b'D')] {
        assert_eq!(book.open_line(line, letter), 0);
    }
    assert_eq!(book.start_day(), 0);
    book
}

/// The book after one more message.
fn after(mut book: Guarded, line: u32, message: Vec<u8>) -> Guarded {
    assert_eq!(send(&mut book, line, &[message])[0].0, 0);
    book
}

/// The book with the entries of some pages overwritten: B claims 99.00 x 9 and 1.00 x 9.
fn claimed(book: Guarded, pages: &[usize]) -> Guarded {
    let none = || entry(*b"    ", 0, 0);
    let bid = entry(*b"BR  ", 99_000_000, 9);
    let offer = entry(*b"BR  ", 1_000_000, 9);
    let claim = [bid, offer, none(), none(), none(), none()].concat();
    let mut bytes = book.bytes().to_vec();
    for &at in pages {
        bytes[in_page(at, ENTRIES)].copy_from_slice(&claim);
    }
    Guarded::over(&bytes)
}

/// Takes a block in order; code and flags of each message.
fn send(book: &mut Guarded, line: u32, messages: &[Vec<u8>]) -> Vec<(u8, u8)> {
    let (expected, _) = record(book.bytes(), line as usize);
    let block = build::block(expected, messages);
    let mut answer = [0; 180];
    let report = book.take_block(line, &block, &mut answer);
    assert_eq!(report.number, 0);
    let answers = answer.chunks_exact(4).take(messages.len());
    answers.map(|answer| (answer[1], answer[2])).collect()
}

/// The six entries in words.
fn words(bytes: &[u8]) -> [String; 6] {
    let bytes = bytes.try_into().expect("96 bytes");
    Publication::from_bytes(bytes)
        .entries()
        .map(|(_, entry)| entry.map_or("none".to_string(), |entry| entry.to_string()))
}

fn read(book: &Guarded, symbol: &str) -> [String; 6] {
    let mut publication = [0; 96];
    let number = book.read(&build::symbol(symbol), &mut publication);
    assert_eq!(number, 0);
    words(&publication)
}

/// One message that names ZT, or FINRA Close or Open, while every page's entries are claimed by B:
/// its code and flags, and what a read gives then. The other pages stay, but for FINRA Close and Open.
fn check(book: Guarded, line: u32, message: Vec<u8>, told: (u8, u8), entries: [&str; 6]) {
    let mut book = claimed(book, &ALL);
    let before = book.bytes().to_vec();
    assert_eq!(read(&book, "ZT"), CLAIMED);
    let control = message[0] == b'C';
    assert_eq!(send(&mut book, line, &[message]), [told]);
    assert_eq!(read(&book, "ZT"), entries);
    for other in [YY, UNLISTED] {
        let now = &book.bytes()[page(other)];
        if control {
            assert_eq!(words(&now[ENTRIES]), NOTHING);
        } else {
            assert_eq!(now, &before[page(other)]);
        }
    }
}

/// A quote of 10.00 x 3 and 10.02 x 2.
fn quote(letter: u8, odd: &Odd) -> Vec<u8> {
    let round = Round::regular(letter, 7, "ZT", (TEN, 3), (TEN + 2 * CENT, 2));
    build::round_lot(&round, odd)
}

fn odd_lot(letter: u8, odd: &Odd) -> Vec<u8> {
    build::odd_lot(letter, 8, build::symbol("ZT"), odd)
}

fn finra_odd_lot(letter: u8, odd: &Odd) -> Vec<u8> {
    build::finra_odd_lot(letter, 8, build::symbol("ZT"), odd)
}

/// The maker MM with 10.00 x 3 and 10.02 x 2.
fn maker() -> Vec<u8> {
    let round = Round::regular(b'D', 7, "ZT", (TEN, 3), (TEN + 2 * CENT, 2));
    build::maker_quote(&round, build::maker("MM"))
}

/// MM with both sides 0 and 0.
fn empty_maker() -> Vec<u8> {
    let round = Round::regular(b'D', 9, "ZT", (0, 0), (0, 0));
    build::maker_quote(&round, build::maker("MM"))
}

fn bids(clear: u8, items: &[(u64, u32)]) -> Odd {
    Odd {
        clear,
        bids: items.to_vec(),
        offers: Vec::new(),
    }
}

fn status(status: u8) -> Vec<u8> {
    build::trading_status(b'N', 9, build::symbol("ZT"), status)
}

fn finra(kind: u8) -> Vec<u8> {
    build::header(b'C', kind, b'D', 9)
}

#[test]
fn a_quote() {
    check(book(), N, quote(b'N', &Odd::IDLE), (0, 3), QUOTED);
}

#[test]
fn a_quote_with_odd_lots() {
    let odd = bids(b' ', &[(TEN + CENT, 5)]);
    let mut entries = QUOTED;
    entries[4] = "N 10.01 x 5";
    check(book(), N, quote(b'N', &odd), (0, 3 + 16), entries);
}

/// The odd part is refused, the round part is in force.
#[test]
fn a_partly_accepted_quote() {
    for (code, odd) in [
        (60, bids(b'Z', &[])),
        (61, bids(b' ', &[(TEN + CENT, 5); 5])),
        (62, bids(b' ', &[(0, 5)])),
        (63, bids(b' ', &[(TEN + CENT, 100)])),
    ] {
        check(book(), N, quote(b'N', &odd), (code, 3), QUOTED);
    }
    let four = [1, 2, 3, 4].map(|cents| (TEN + cents * CENT, 5));
    let standing = after(book(), N, odd_lot(b'N', &bids(b' ', &four)));
    let fifth = bids(b' ', &[(TEN + 5 * CENT, 5)]);
    let mut entries = QUOTED;
    entries[4] = "N 10.04 x 5";
    check(standing, N, quote(b'N', &fifth), (64, 3 + 16), entries);
}

/// A quote that is behind another letter's as well as behind what is claimed.
#[test]
fn a_quote_behind_the_best() {
    let standing = after(book(), N, quote(b'N', &Odd::IDLE));
    let round = Round::regular(b'P', 8, "ZT", (TEN - CENT, 1), (TEN + 3 * CENT, 1));
    let behind = build::round_lot(&round, &Odd::IDLE);
    let mut entries = QUOTED;
    entries[0] = "N R 10.00 x 3, ahead by price";
    entries[1] = "N R 10.02 x 2, ahead by price";
    check(standing, P, behind, (0, 3), entries);
}

#[test]
fn odd_lots() {
    let odd = bids(b' ', &[(TEN + CENT, 5)]);
    let mut entries = NOTHING;
    entries[4] = "N 10.01 x 5";
    check(book(), N, odd_lot(b'N', &odd), (0, 3 + 16), entries);
}

/// A Q M with a space and no items: no byte of a slot or cell changes.
#[test]
fn idle_odd_lots() {
    check(book(), N, odd_lot(b'N', &Odd::IDLE), (0, 3), NOTHING);
    let standing = after(book(), N, quote(b'N', &Odd::IDLE));
    check(standing, P, odd_lot(b'P', &Odd::IDLE), (0, 3), QUOTED);

    let mut book = claimed(after(book(), N, quote(b'N', &Odd::IDLE)), &[ZT]);
    let rest: Range<usize> = SLOTS.start..page(0).len();
    let before = book.bytes()[in_page(ZT, rest.clone())].to_vec();
    let idle = odd_lot(b'N', &Odd::IDLE);
    assert_eq!(send(&mut book, N, &[idle]), [(0, 3)]);
    assert_eq!(book.bytes()[in_page(ZT, rest)], before);
}

/// FINRA's odd lots, one with a space and no items too. Without a maker they are stored and not seen.
#[test]
fn finra_odd_lots() {
    let message = finra_odd_lot(b'D', &bids(b' ', &[(TEN + CENT, 5)]));
    check(book(), D, message.clone(), (0, 3), NOTHING);
    check(book(), D, finra_odd_lot(b'D', &Odd::IDLE), (0, 3), NOTHING);
    let mut entries = MADE;
    entries[4] = "D 10.01 x 5";
    let standing = after(book(), D, maker());
    check(standing, D, message.clone(), (0, 15 + 16), entries);
    let stored = after(book(), D, message);
    check(stored, D, maker(), (0, 15 + 16), entries);
}

/// A closing quote hides its letter's odd lots, the next quote brings them back.
#[test]
fn quotes_that_hide_odd_lots() {
    let levels = odd_lot(b'N', &bids(b' ', &[(TEN + CENT, 5)]));
    let mut closing = quote(b'N', &Odd::IDLE);
    closing[31] = b'C';
    let standing = after(book(), N, levels.clone());
    check(standing, N, closing.clone(), (0, 3), NOTHING);
    let hidden = after(after(book(), N, levels), N, closing);
    let mut entries = QUOTED;
    entries[4] = "N 10.01 x 5";
    check(hidden, N, quote(b'N', &Odd::IDLE), (0, 3 + 16), entries);
}

/// A clear of levels that do not stand, and a removal of an unknown price.
#[test]
fn odd_lots_that_change_no_level() {
    for odd in [
        bids(b'B', &[]),
        bids(b'S', &[]),
        bids(b'X', &[]),
        bids(b' ', &[(TEN, 0)]),
    ] {
        check(book(), N, odd_lot(b'N', &odd), (0, 3), NOTHING);
    }
}

/// A status works the entries out, also one that changes no status; while halted they are none.
#[test]
fn statuses() {
    let quoted = || after(book(), N, quote(b'N', &Odd::IDLE));
    check(quoted(), N, status(b'H'), (0, 3), NOTHING);
    check(quoted(), N, status(b'T'), (0, 3), QUOTED);
    let halted = || after(quoted(), N, status(b'H'));
    check(halted(), N, status(b'H'), (0, 3), NOTHING);
    check(halted(), N, status(b'T'), (0, 3), QUOTED);
}

/// Every accepted part of a halted symbol leaves none.
#[test]
fn parts_in_a_halt() {
    let odd = bids(b' ', &[(TEN + CENT, 5)]);
    for (line, message) in [
        (N, quote(b'N', &odd)),
        (N, odd_lot(b'N', &odd)),
        (N, odd_lot(b'N', &Odd::IDLE)),
        (D, finra_odd_lot(b'D', &odd)),
        (D, maker()),
        (D, empty_maker()),
        (D, finra(b'C')),
    ] {
        check(
            after(book(), N, status(b'H')),
            line,
            message,
            (0, 3),
            NOTHING,
        );
    }
}

#[test]
fn a_maker() {
    check(book(), D, maker(), (0, 15), MADE);
}

/// The same quote of a maker again.
#[test]
fn a_maker_that_changes_nothing() {
    check(after(book(), D, maker()), D, maker(), (0, 15), MADE);
}

#[test]
fn an_empty_quote_of_an_unknown_maker() {
    check(book(), D, empty_maker(), (0, 3), NOTHING);
}

#[test]
fn an_empty_quote_that_frees_a_cell() {
    let standing = after(book(), D, maker());
    check(standing, D, empty_maker(), (0, 3), NOTHING);
}

/// Without a maker, and with one.
#[test]
fn finra_close() {
    check(book(), D, finra(b'C'), (0, 3), NOTHING);
    check(after(book(), D, maker()), D, finra(b'C'), (0, 3), NOTHING);
}

#[test]
fn finra_open() {
    check(book(), D, finra(b'O'), (0, 3), NOTHING);
    check(after(book(), D, maker()), D, finra(b'O'), (0, 15), MADE);
}

/// The flags go by the listed pages; the entries of a page that is not listed are worked out too.
#[test]
fn finra_close_and_open_of_one_wrong_page() {
    for kind in *b"CO" {
        for (wrong, flags) in [(ZT, 3), (YY, 3), (UNLISTED, 0)] {
            let mut book = claimed(book(), &[wrong]);
            assert_eq!(send(&mut book, D, &[finra(kind)]), [(0, flags)]);
            for at in ALL {
                assert_eq!(words(&book.bytes()[in_page(at, ENTRIES)]), NOTHING);
            }
        }
    }
}

/// Each byte of the entries, changed alone, is put right, and sets the flag of its entry alone.
#[test]
fn one_wrong_byte() {
    let odd = bids(b' ', &[(TEN + CENT, 5)]);
    let book = after(book(), N, quote(b'N', &odd));
    let book = after(book, D, maker());
    for at in ENTRIES {
        let mut bytes = book.bytes().to_vec();
        bytes[page(ZT).start + at] ^= 0x11;
        for (line, message) in [
            (P, odd_lot(b'P', &Odd::IDLE)),
            (N, quote(b'N', &odd)),
            (D, maker()),
            (D, finra(b'O')),
        ] {
            let mut wrong = Guarded::over(&bytes);
            let flag = 1 << ((at - ENTRIES.start) / 16);
            assert_eq!(send(&mut wrong, line, &[message]), [(0, flag)], "byte {at}");
            let now = &wrong.bytes()[in_page(ZT, ENTRIES)];
            assert_eq!(now, &book.bytes()[in_page(ZT, ENTRIES)], "byte {at}");
        }
    }
}

/// The first part of a block puts the entries right; the next one changes none.
#[test]
fn two_parts_of_a_block() {
    let mut book = claimed(book(), &ALL);
    let idle = odd_lot(b'N', &Odd::IDLE);
    let messages = [
        quote(b'N', &Odd::IDLE),
        idle.clone(),
        quote(b'N', &Odd::IDLE),
    ];
    assert_eq!(send(&mut book, N, &messages), [(0, 3), (0, 0), (0, 0)]);
    assert_eq!(read(&book, "ZT"), QUOTED);

    let mut book = claimed(after(self::book(), N, quote(b'N', &Odd::IDLE)), &ALL);
    let messages = [idle, quote(b'N', &Odd::IDLE)];
    assert_eq!(send(&mut book, N, &messages), [(0, 3), (0, 0)]);
    assert_eq!(read(&book, "ZT"), QUOTED);
}

/// Levels that no reading counts stay where they are; the entries go by the reading.
#[test]
fn levels_that_no_reading_counts() {
    let second = slot(usize::from(b'N' - b'A')).start + LEVELS + 20;
    let mut bytes = claimed(book(), &ALL).bytes().to_vec();
    bytes[in_page(ZT, second..second + 20)].fill(1);
    let mut book = Guarded::over(&bytes);
    let idle = odd_lot(b'N', &Odd::IDLE);
    assert_eq!(send(&mut book, N, &[idle]), [(0, 3)]);
    assert_eq!(read(&book, "ZT"), NOTHING);
    assert_eq!(book.bytes()[in_page(ZT, second..second + 20)], [1; 20]);
}

/// Messages that are rejected, and those without a part, change no byte of a page.
#[test]
fn a_rejected_message_leaves_wrong_entries() {
    let no_symbol = Round::regular(b'N', 7, "NONE", (TEN, 3), (TEN, 2));
    let no_condition = Round {
        condition: b'L',
        ..Round::regular(b'N', 7, "ZT", (TEN, 3), (TEN, 2))
    };
    let no_price = Round::regular(b'N', 7, "ZT", (0, 3), (TEN, 2));
    let zt = build::symbol("ZT");
    let of_maker = Round::regular(b'D', 7, "ZT", (TEN, 3), (TEN, 2));
    for (line, message, code) in [
        (N, build::header(b'Q', b'V', b'N', 7), 40),
        (N, quote(b'P', &Odd::IDLE), 41),
        (N, build::header(b'C', b'C', b'N', 7), 44),
        (N, finra_odd_lot(b'N', &bids(b' ', &[(TEN, 5)])), 44),
        (D, odd_lot(b'D', &bids(b' ', &[(TEN, 5)])), 44),
        (N, build::round_lot(&no_symbol, &Odd::IDLE), 45),
        (N, build::round_lot(&no_condition, &Odd::IDLE), 46),
        (N, build::round_lot(&no_price, &Odd::IDLE), 47),
        (N, odd_lot(b'N', &bids(b'Z', &[])), 60),
        (N, odd_lot(b'N', &bids(b' ', &[(TEN, 5); 5])), 61),
        (N, odd_lot(b'N', &bids(b' ', &[(0, 5)])), 62),
        (N, odd_lot(b'N', &bids(b' ', &[(TEN, 100)])), 63),
        (D, finra_odd_lot(b'D', &bids(b'X', &[(TEN, 100)])), 63),
        (D, build::maker_quote(&of_maker, *b"M  M"), 48),
        (P, build::trading_status(b'P', 7, zt, b'H'), 76),
        (N, status(b'h'), 77),
        (N, build::header(b'C', b'I', b'N', 7), 0),
        (N, build::header(b'C', b'T', b'N', 7), 0),
        (N, build::test(b'N', 7), 0),
    ] {
        let mut book = claimed(book(), &ALL);
        let before = book.bytes().to_vec();
        assert_eq!(send(&mut book, line, &[message]), [(code, 0)]);
        for at in ALL {
            assert_eq!(book.bytes()[page(at)], before[page(at)], "code {code}");
        }
        assert_eq!(read(&book, "ZT"), CLAIMED);
    }
}

/// 49 and 64, which go by what stands in the page.
#[test]
fn a_full_page_leaves_wrong_entries() {
    let mut full = book();
    for maker in b'A'..=b'P' {
        let round = Round::regular(b'D', 7, "ZT", (TEN, 3), (TEN, 2));
        let message = build::maker_quote(&round, [maker, b' ', b' ', b' ']);
        full = after(full, D, message);
    }
    let four = [1, 2, 3, 4].map(|cents| (TEN + cents * CENT, 5));
    let full = after(full, N, odd_lot(b'N', &bids(b' ', &four)));
    let fifth = odd_lot(b'N', &bids(b' ', &[(TEN + 5 * CENT, 5)]));
    let mut book = claimed(full, &ALL);
    let before = book.bytes()[page(ZT)].to_vec();
    assert_eq!(send(&mut book, D, &[maker()]), [(49, 0)]);
    assert_eq!(send(&mut book, N, &[fifth]), [(64, 0)]);
    assert_eq!(book.bytes()[page(ZT)], before);
}

/// Blocks of each number change no byte of the book.
#[test]
fn a_refused_block_leaves_wrong_entries() {
    let fine = build::block(1, &[quote(b'N', &Odd::IDLE)]);
    let changed = |at: usize, byte: u8| {
        let mut block = fine.clone();
        block[at] = byte;
        block
    };
    let mut no_offset = changed(11, 13);
    build::seal_checksum(&mut no_offset);
    let not_alone = build::block(1, &[quote(b'N', &Odd::IDLE), finra(b'C')]);
    let duplicate = build::block(0, &[quote(b'N', &Odd::IDLE)]);
    for (line, block, room, number) in [
        (N, fine.clone(), 179, 9),
        (8, fine.clone(), 180, 21),
        (N, fine[..31].to_vec(), 180, 30),
        (N, changed(0, 2), 180, 31),
        (N, changed(8, 255), 180, 32),
        (N, no_offset, 180, 33),
        (N, not_alone, 180, 34),
        (N, duplicate, 180, 35),
    ] {
        let mut book = claimed(book(), &ALL);
        let before = book.bytes().to_vec();
        let report = book.take_block(line, &block, &mut vec![0; room]);
        assert_eq!(report.number, number);
        assert_eq!(book.bytes(), before);
    }
    let mut book = claimed(book(), &ALL);
    assert_eq!(book.end_day(), 0);
    let before = book.bytes().to_vec();
    assert_eq!(book.take_block(N, &fine, &mut [0; 180]).number, 20);
    assert_eq!(book.bytes(), before);
    assert_eq!(read(&book, "ZT"), CLAIMED);
}

/// A query goes by the quotes of the page: entries that nobody quotes protect nothing, and a quote or
/// a maker protects its price whatever the entries say. Quotes in the slot of S are not looked at.
#[test]
fn a_query_goes_by_the_quotes() {
    let asked = |book: &Guarded, side, price| {
        let told = book.is_protected(&build::symbol("ZT"), side, price);
        assert_eq!(told.number, 0);
        (told.yes, told.looked)
    };
    let no = (false, 26);
    let book = claimed(self::book(), &ALL);
    for price in [0, 1_000_000, TEN, 99_000_000, u64::MAX] {
        assert_eq!(
            (asked(&book, b'B', price), asked(&book, b'S', price)),
            (no, no)
        );
    }
    for (line, message, looked) in [(N, quote(b'N', &Odd::IDLE), 14), (D, maker(), 4)] {
        let book = claimed(after(self::book(), line, message), &ALL);
        let (yes, offer) = ((true, looked), TEN + 2 * CENT);
        assert_eq!(
            [TEN, TEN + 1].map(|price| asked(&book, b'B', price)),
            [yes, no]
        );
        assert_eq!(
            [offer, offer - 1].map(|price| asked(&book, b'S', price)),
            [yes, no]
        );
    }
    // S and T have N's quote in their slots, and its keys.
    let mut bytes = after(self::book(), N, quote(b'N', &Odd::IDLE))
        .bytes()
        .to_vec();
    for to in *b"ST" {
        for (from, to) in places(b'N').into_iter().zip(places(to)) {
            bytes.copy_within(from, to.start);
        }
    }
    for place in places(b'N') {
        bytes[place].fill(0);
    }
    let book = Guarded::over(&bytes);
    assert_eq!(asked(&book, b'B', TEN), (true, 20));
    // without T's slot, and without one byte of its keys
    let [slot, bid, offer, ..] = places(b'T');
    let mut bytes = book.bytes().to_vec();
    bytes[slot].fill(0);
    assert_eq!(asked(&Guarded::over(&bytes), b'B', TEN), no);
    for (side, price, key) in [(b'B', TEN, bid), (b'S', TEN + 2 * CENT, offer)] {
        assert_eq!(asked(&book, side, price), (true, 20));
        for at in key {
            let mut bytes = book.bytes().to_vec();
            bytes[at] ^= 1;
            assert_eq!(asked(&Guarded::over(&bytes), side, price), no);
        }
    }
}

/// The slot and the keys of a letter on ZT's page, in the book.
fn places(letter: u8) -> [Range<usize>; 5] {
    let at = usize::from(letter - b'A');
    let [bid, offer, bids, offers] = letter_keys(at);
    [slot(at), bid, offer, bids, offers].map(|part| in_page(ZT, part))
}

/// A side whose key is not its own has no quote and no level, and a quote or an odd part that is taken
/// gives it its own again.
#[test]
fn keys_that_are_not_their_own() {
    let odd = Odd {
        clear: b' ',
        bids: vec![(TEN + CENT, 5)],
        offers: vec![(TEN + CENT, 6)],
    };
    let book = after(book(), N, quote(b'N', &odd));
    let mut all = QUOTED;
    all[4] = "N 10.01 x 5";
    all[5] = "N 10.01 x 6";
    assert_eq!(read(&book, "ZT"), all);
    let idle = || odd_lot(b'P', &Odd::IDLE);
    let [_, bid, offer, bids, offers] = places(b'N');
    for (entry, key) in [(0, bid), (1, offer), (4, bids), (5, offers)] {
        for wrong in [[0; 4], [0xFF; 4], [1, 0, 0, 0]] {
            let mut bytes = book.bytes().to_vec();
            bytes[key.clone()].copy_from_slice(&wrong);
            let mut wrong = Guarded::over(&bytes);
            assert_eq!(send(&mut wrong, P, &[idle()]), [(0, 1 << entry)]);
            let mut without = all;
            without[entry] = "none";
            assert_eq!(read(&wrong, "ZT"), without);
            assert_eq!(wrong.bytes()[key.clone()], bytes[key.clone()]);
            let again = quote(b'N', &odd);
            assert_eq!(send(&mut wrong, N, &[again]), [(0, 1 << entry)]);
            assert_eq!(wrong.bytes()[page(ZT)], book.bytes()[page(ZT)]);
        }
    }
}

/// An order goes by the quotes of the page, not by its entries, and leaves these as they stand.
#[test]
fn an_order_goes_by_the_quotes() {
    let order = |book: &Guarded, side| {
        let mut steps = [0; 325];
        let told = book.try_order(&build::symbol("ZT"), side, 7, &mut steps);
        assert_eq!(told.number, 0);
        let price = u64::from_be_bytes(steps[1..9].try_into().expect("eight bytes"));
        (told.steps, steps[0], price)
    };
    let book = claimed(self::book(), &ALL);
    assert_eq!([order(&book, b'B'), order(&book, b'S')], [(0, 0, 0); 2]);
    for (line, message, letter) in [(N, quote(b'N', &Odd::IDLE), b'N'), (D, maker(), b'D')] {
        let book = claimed(after(self::book(), line, message), &ALL);
        assert_eq!(order(&book, b'B'), (1, letter, TEN + 2 * CENT));
        assert_eq!(order(&book, b'S'), (1, letter, TEN));
        assert_eq!(read(&book, "ZT"), CLAIMED);
    }
}
