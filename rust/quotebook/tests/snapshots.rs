//! Snapshots of random books (T-12): decoded by the second implementation's subscriber and by the
//! wrapper's, and compared with reads and with the letters' quotes that the messages of the list give.

mod support;

use std::collections::{BTreeMap, BTreeSet};

use quotebook::snapshot::{self, SNAPSHOT_MAX};
use quotebook::{lent, Price, Publication};
use second::compare::{lent_part, observe};
use second::mixing::make_calls;
use second::snapshot::{blocks, decode, Latest, Snapshot};
use second::{build, generate, Call, List, QuoteBook, SnapshotSize};
use support::guarded::Guarded;
use support::library;

const BOOKS: u64 = 300;
const CALLS: usize = 200;

/// The latest quote of each letter in each symbol since Start of Day, by the messages that were
/// accepted or partly accepted.
fn latest(list: &List) -> BTreeMap<(Vec<u8>, u8), Latest> {
    let mut latest = BTreeMap::new();
    for (call, observed) in list.calls.iter().zip(observe(library, list)) {
        match (call, observed.number) {
            (Call::Make { .. } | Call::StartDay, 0) => latest.clear(),
            (Call::TakeBlock { block, .. }, 0 | 70) => {
                let (_, messages) = build::split(block).expect("a taken block");
                let answers = lent_part(&observed.buffer).chunks_exact(4);
                for (message, answer) in messages.iter().zip(answers) {
                    if &message[..2] == b"QK" && (answer[1] == 0 || answer[1] >= 60) {
                        let quote = quote_of(message);
                        latest.insert((message[20..31].to_vec(), message[2]), quote);
                    }
                }
            }
            _ => {}
        }
    }
    latest
}

fn quote_of(message: &[u8]) -> Latest {
    let side = |at: usize| {
        let price = u64::from_be_bytes(message[at..at + 8].try_into().unwrap());
        let size = u32::from_be_bytes(message[at + 8..at + 12].try_into().unwrap());
        (price, size)
    };
    Latest {
        letter: message[2],
        condition: message[31],
        bid: side(32),
        offer: side(44),
    }
}

/// The library's book after a list.
fn after(list: &List) -> Guarded {
    let mut book = Guarded::fresh(list.n);
    make_calls(&mut book, &list.calls);
    book
}

#[test]
fn decoded_and_compared_with_reads() {
    let mut letters = BTreeSet::new();
    for seed in 0..BOOKS {
        let list = generate::list(seed, CALLS);
        let latest = latest(&list);
        let book = after(&list);
        for call in &list.calls {
            let Call::AddSymbol { symbol, .. } = call else {
                continue;
            };
            let size = book.snapshot_len(symbol);
            let mut publication = [0; 96];
            assert_eq!(book.read(symbol, &mut publication), size.number);
            if size.number != 0 {
                assert_eq!(size, SnapshotSize::refused(10));
                continue;
            }
            let bytes = written(&book, symbol, size);
            let decoded = decode(&bytes).expect("a snapshot");
            compare(&decoded, symbol, &publication);
            let quotes = latest.iter().filter(|((named, _), _)| named == symbol);
            let quotes: Vec<Latest> = quotes.map(|(_, &quote)| quote).collect();
            assert_eq!(decoded.letters, quotes, "seed {seed}");
            letters.insert(decoded.letters.len());
            by_the_wrapper(&bytes, &decoded, &publication);
        }
    }
    println!("letters shown: {letters:?}");
    for n in [0..=0, 1..=1, 2..=13, 14..=24] {
        let reached = letters.range(n.clone()).next().is_some();
        assert!(reached, "no snapshot of {n:?} letters");
    }
}

/// The snapshot in an output of exactly its length; one byte short it is refused and nothing written.
fn written(book: &Guarded, symbol: &[u8], size: SnapshotSize) -> Vec<u8> {
    let mut short = vec![0xEE; size.bytes - 1];
    let refused = book.snapshot(symbol, &mut short);
    assert_eq!(refused, SnapshotSize::refused(81));
    assert!(short.iter().all(|&byte| byte == 0xEE));
    let mut output = vec![0xEE; size.bytes];
    assert_eq!(book.snapshot(symbol, &mut output), size);
    assert!(size.bytes <= SNAPSHOT_MAX);
    let blocks = blocks(&output).expect("blocks");
    assert_eq!(blocks.len(), size.blocks);
    assert!(blocks.iter().all(|block| block.len <= 1000));
    output
}

/// The national and FINRA entries of a read, but for T-08's byte.
fn compare(decoded: &Snapshot, symbol: &[u8], publication: &[u8; 96]) {
    assert_eq!(decoded.symbol, *symbol);
    let entries = decoded.national.iter().chain(&decoded.finra);
    for (i, (entry, published)) in entries.zip(publication.chunks_exact(16)).enumerate() {
        let mut published = published.to_vec();
        if i < 2 {
            published[2] = b' ';
        }
        assert_eq!(entry.to_vec(), published);
    }
}

/// The wrapper reads the same, and cuts the blocks apart.
fn by_the_wrapper(bytes: &[u8], decoded: &Snapshot, publication: &[u8; 96]) {
    let read = snapshot::Snapshot::from_bytes(bytes).expect("a snapshot");
    assert_eq!(snapshot::blocks(bytes).collect::<Vec<_>>().concat(), bytes);
    let published = Publication::from_bytes(publication);
    let entries = [
        (read.national_bid, published.national_bid),
        (read.national_offer, published.national_offer),
        (read.finra_bid, published.finra_bid),
        (read.finra_offer, published.finra_offer),
    ];
    for (entry, published) in entries {
        let seen = |entry: quotebook::Entry| (entry.name, entry.condition, entry.price, entry.size);
        assert_eq!(entry.map(seen), published.map(seen));
    }
    let letters = read.letters.iter().map(|quote| Latest {
        letter: quote.letter,
        condition: quote.condition,
        bid: (quote.bid.0, quote.bid_size),
        offer: (quote.offer.0, quote.offer_size),
    });
    assert_eq!(letters.collect::<Vec<_>>(), decoded.letters);
}

/// A book with the letters A to Z, as many as asked for, quoting ZT.
fn with_letters(count: usize) -> Guarded {
    let mut book = Guarded::fresh(1);
    assert_eq!(book.add_symbol(&build::symbol("ZT"), 100, b'N'), 0);
    assert_eq!(book.start_day(), 0);
    let letters = (b'A'..=b'Z').filter(|letter| !b"DS".contains(letter));
    for (line, letter) in (0..).zip(letters).take(count) {
        assert_eq!(book.open_line(line, letter), 0);
        let quote = build::Round::regular(letter, 7, "ZT", (10_000_000, 3), (10_020_000, 2));
        let message = build::round_lot(&quote, &build::Odd::IDLE);
        let report = book.take_block(line, &build::block(1, &[message]), &mut [0; 180]);
        assert_eq!((report.number, report.accepted), (0, 1));
    }
    book
}

/// Both subscribers refuse a snapshot with any one byte altered, cut short, or with a block missing.
#[test]
fn damaged_snapshots() {
    let zt = build::symbol("ZT");
    for letters in [0, 1, 13, 14, 24] {
        let book = with_letters(letters);
        let bytes = written(&book, &zt, book.snapshot_len(&zt));
        let refused = |bytes: &[u8]| {
            assert!(decode(bytes).is_err());
            assert!(snapshot::Snapshot::from_bytes(bytes).is_err());
        };
        for at in 0..bytes.len() {
            for flipped in [1, 0x80] {
                let mut bytes = bytes.clone();
                bytes[at] ^= flipped;
                refused(&bytes);
            }
            refused(&bytes[..at]);
        }
        let cut: Vec<&[u8]> = snapshot::blocks(&bytes).collect();
        if let [first, second] = cut[..] {
            refused(first);
            refused(second);
            refused(&[second, first].concat());
        }
        refused(&[&bytes[..], &bytes[..]].concat());
    }
}

/// Through a book that owns its memory.
#[test]
fn a_books_snapshot() -> Result<(), Box<dyn std::error::Error>> {
    let mut book = quotebook::Book::new(1)?;
    book.add_symbol("ZT", 100, b'N')?;
    book.open_line(5, b'N')?;
    book.start_day()?;
    assert_eq!(book.snapshot("ZT")?.len(), 194);
    let quote = build::Round::regular(b'N', 7, "ZT", (10_000_000, 3), (10_020_000, 0));
    let message = build::round_lot(&quote, &build::Odd::IDLE);
    book.take_block(5, &build::block(1, &[message]))?;
    let bytes = book.snapshot("ZT")?;
    assert_eq!(bytes.len(), 256);
    let read = snapshot::Snapshot::from_bytes(&bytes)?;
    assert_eq!(read.national_bid, book.read("ZT")?.national_bid);
    assert_eq!(
        (read.letters[0].bid, read.letters[0].bid_size),
        (Price(10_000_000), 3)
    );
    let said = "ZT\nnational bid   N R 10.00 x 3\nnational offer none\nFINRA bid      none\n\
                FINRA offer    none\nN R 10.00 x 3, 10.02 x 0\n";
    assert_eq!(read.to_string(), said);
    let refusal = book.snapshot("YY").unwrap_err();
    assert_eq!(refusal.number, quotebook::Number::SymbolUnknown);
    let short = lent::snapshot(book.as_bytes(), &build::symbol("ZT"), &mut [0; 255]);
    assert_eq!(short.number, quotebook::Number::SnapshotShort);
    assert_eq!((short.blocks, short.bytes), (0, 0));
    Ok(())
}
