//! Hand-written snapshots (T-12): every byte of two, and what a subscriber reads of others.

use crate::desk::*;
use second::build::{self, Round, Shown};
use second::snapshot::{blocks, decode, Latest, Snapshot};
use second::SnapshotSize;

/// The bytes of ZT's snapshot; the call that tells their number is asked first.
fn snapshot(desk: &Desk) -> Vec<u8> {
    let zt = build::symbol("ZT");
    let told = desk.book.snapshot_len(&zt);
    assert_eq!(told.number, 0);
    let mut output = vec![0xEE; told.bytes + 5];
    assert_eq!(desk.book.snapshot(&zt, &mut output), told);
    assert_eq!(output[told.bytes..], [0xEE; 5]);
    output.truncate(told.bytes);
    assert_eq!(blocks(&output).map(|blocks| blocks.len()), Ok(told.blocks));
    output
}

/// What a subscriber reads, after comparing the entries with a read: the third byte of a national
/// name is not carried.
fn decoded(desk: &Desk) -> Snapshot {
    let decoded = decode(&snapshot(desk)).expect("a snapshot");
    let publication = desk.publication("ZT");
    let entries = decoded.national.iter().chain(&decoded.finra);
    for (i, (entry, published)) in entries.zip(publication.chunks_exact(16)).enumerate() {
        let mut published = published.to_vec();
        if i < 2 {
            published[2] = b' ';
        }
        assert_eq!(entry.to_vec(), published);
    }
    assert_eq!(decoded.symbol, build::symbol("ZT"));
    decoded
}

fn latest(letter: u8, condition: u8, bid: Shown, offer: Shown) -> Latest {
    Latest {
        letter,
        condition,
        bid,
        offer,
    }
}

fn bytes(hex: &str) -> Vec<u8> {
    let digits: Vec<u8> = hex
        .bytes()
        .filter(|byte| !byte.is_ascii_whitespace())
        .collect();
    let pairs = digits.chunks_exact(2);
    let byte = |pair: &[u8]| u8::from_str_radix(std::str::from_utf8(pair).unwrap(), 16).unwrap();
    pairs.map(byte).collect()
}

/// The quote of a letter that the desk has no line of.
fn quote_by(desk: &mut Desk, line: u32, letter: u8, bid: Shown, offer: Shown) {
    assert_eq!(desk.book.open_line(line, letter), 0);
    let round = Round::regular(letter, 7, "ZT", bid, offer);
    assert_eq!(desk.code(line, quote(&round)), 0);
}

#[test]
fn every_byte_of_an_empty_symbol() {
    each_desk(|desk| {
        let expected = bytes(
            "0b 00c2 00000001 02 04 00000000 00 0000000000000000 0afe
             0066 52 43 53 5a54202020202020202020 20
             0000000000000000 0000000000000000 0000000000000000 0000000000000000 0000000000000000 00
             20 20 0000000000000000 00000000 20202020
             20 20 0000000000000000 00000000 20202020 20 20 20 20 20 202020
             0044 52 46 44 5a54202020202020202020
             20 0000000000000000 00000000 20202020
             20 0000000000000000 00000000 20202020 20 0000000000000000 0000000000000000 20",
        );
        assert_eq!(snapshot(desk), expected);
        assert!(decoded(desk).letters.is_empty());
    });
}

#[test]
fn every_byte_of_one_letter() {
    each_desk(|desk| {
        desk.code(N, quote(&round(N, (TEN, 3), (TEN + 2 * CENT, 2))));
        let expected = bytes(
            "0b 0100 00000001 03 04 00000000 00 0000000000000000 168a
             0066 52 43 53 5a54202020202020202020 20
             0000000000000000 0000000000000000 0000000000000000 0000000000000000 0000000000000000 00
             4e 52 0000000000989680 00000003 20202020
             4e 52 000000000098e4a0 00000002 20202020 20 20 20 20 20 202020
             003e 52 50 4e 5a54202020202020202020 52
             0000000000989680 00000003 000000000098e4a0 00000002 20 20 20 20
             0000000000000000 0000000000000000 20
             0044 52 46 44 5a54202020202020202020
             20 0000000000000000 00000000 20202020
             20 0000000000000000 00000000 20202020 20 0000000000000000 0000000000000000 20",
        );
        assert_eq!(snapshot(desk), expected);
    });
}

#[test]
fn letters_from_a_on() {
    each_desk(|desk| {
        desk.code(P, quote(&round(P, (TEN, 1), NOTHING)));
        desk.code(N, quote(&round(N, NOTHING, (TEN, 2))));
        desk.code(A, quote(&round(A, (TEN, 9), (TEN + CENT, 8))));
        desk.code(N, quote(&round(N, (TEN, 5), (TEN + CENT, 6))));
        let letters = [
            latest(b'A', b'R', (TEN, 9), (TEN + CENT, 8)),
            latest(b'N', b'R', (TEN, 5), (TEN + CENT, 6)),
            latest(b'P', b'R', (TEN, 1), NOTHING),
        ];
        assert_eq!(decoded(desk).letters, letters);
    });
}

/// "Each letter with a round quote since Start of Day", whatever it shows.
#[test]
fn quotes_that_do_not_count() {
    each_desk(|desk| {
        let closing = with(quote(&round(P, (TEN, 3), (TEN + CENT, 3))), 31, b"C");
        desk.code(A, quote(&round(A, NOTHING, NOTHING)));
        desk.code(N, quote(&round(N, (TEN, 0), (TEN + CENT, 0))));
        desk.code(P, closing);
        let letters = [
            latest(b'A', b'R', NOTHING, NOTHING),
            latest(b'N', b'R', (TEN, 0), (TEN + CENT, 0)),
            latest(b'P', b'C', (TEN, 3), (TEN + CENT, 3)),
        ];
        let decoded = decoded(desk);
        assert_eq!(decoded.letters, letters);
        assert_eq!(decoded.national.map(|entry| entry[0]), [b' '; 2]);
    });
}

#[test]
fn d_leads() {
    each_desk(|desk| {
        desk.code(N, quote(&round(N, (TEN, 3), (TEN + 2 * CENT, 2))));
        desk.code(D, maker("AC", (TEN + CENT, 4), NOTHING));
        let decoded = decoded(desk);
        let letters: Vec<u8> = decoded.letters.iter().map(|latest| latest.letter).collect();
        assert_eq!(letters, b"N");
        assert_eq!(decoded.national.map(|entry| entry[0]), *b"DN");
        assert_eq!(decoded.finra[0][..4], *b"AC  ");
        // C has no maker, F no condition.
        let bytes = snapshot(desk);
        assert_eq!(bytes[24 + 72..24 + 76], *b"    ");
        assert_eq!(bytes[24 + 102 + 62 + 16], b' ');
        // FINRA Close takes D out of both.
        assert_eq!(desk.code(D, control(b'C', D)), 0);
        let decoded = self::decoded(desk);
        assert_eq!(decoded.national.map(|entry| entry[0]), *b"NN");
        assert_eq!(decoded.finra[0][..4], *b"    ");
    });
}

/// While ZT is halted its entries are none, and each letter's quote is sent as it is stored.
#[test]
fn a_halted_symbol() {
    each_desk(|desk| {
        desk.code(N, quote(&round(N, (TEN, 3), (TEN + 2 * CENT, 2))));
        desk.code(D, maker("AC", (TEN + CENT, 4), NOTHING));
        let trading = decoded(desk);
        assert_eq!(desk.code(N, status(N, "ZT", b'H')), 0);
        let halted = decoded(desk);
        assert_eq!(halted.national.map(|entry| entry[0]), [b' '; 2]);
        assert_eq!(halted.finra.map(|entry| entry[0]), [b' '; 2]);
        assert_eq!(halted.letters, trading.letters);
        // The halt reason is blank.
        assert_eq!(snapshot(desk)[24 + 98], b' ');
        desk.code(P, quote(&round(P, (TEN, 1), NOTHING)));
        assert_eq!(decoded(desk).letters.len(), 2);
        assert_eq!(desk.code(N, status(N, "ZT", b'T')), 0);
        assert_eq!(decoded(desk).national, trading.national);
    });
}

/// Letters A to Z without D and S, and the lengths, numbers, messages and flags of the blocks.
#[test]
fn blocks_by_letters() {
    each_desk(|desk| {
        let mut expected = Vec::new();
        let letters = (b'A'..=b'Z').filter(|letter| !b"DS".contains(letter));
        for (k, letter) in (1..).zip(letters) {
            let (bid, offer) = ((TEN + k, k as u32), (TEN + 100 + k, 2 * k as u32));
            match letter {
                b'A' => desk.code(A, quote(&round(A, bid, offer))),
                b'N' => desk.code(N, quote(&round(N, bid, offer))),
                b'P' => desk.code(P, quote(&round(P, bid, offer))),
                _ => {
                    quote_by(desk, u32::from(letter - b'A') + 20, letter, bid, offer);
                    0
                }
            };
            expected.push(latest(letter, b'R', bid, offer));
            assert_eq!(decoded(desk).letters, expected);
            let bytes = snapshot(desk);
            let blocks = blocks(&bytes).expect("blocks");
            let told: Vec<_> = blocks
                .iter()
                .map(|block| {
                    let count = block.messages.len();
                    (block.len, block.sequence, count, block.delivery_flag)
                })
                .collect();
            let k = k as usize;
            match k {
                1..=13 => assert_eq!(told, [(194 + 62 * k, 1, k + 2, 4)]),
                _ => assert_eq!(told, [(994, 1, 15, 1), (62 * k - 776, 16, k - 13, 3)]),
            }
        }
        assert_eq!(expected.len(), 24);
        assert_eq!(snapshot(desk).len(), 1706);
    });
}

#[test]
fn days() {
    each_desk(|desk| {
        desk.code(N, quote(&round(N, (TEN, 3), NOTHING)));
        assert_eq!(desk.book.end_day(), 0);
        assert_eq!(decoded(desk).letters.len(), 1);
        assert_eq!(desk.book.start_day(), 0);
        assert_eq!(decoded(desk).letters.len(), 0);
        assert_eq!(snapshot(desk).len(), 194);
    });
}

#[test]
fn numbers() {
    each_desk(|desk| {
        desk.code(N, quote(&round(N, (TEN, 3), NOTHING)));
        let zt = build::symbol("ZT");
        let size = SnapshotSize {
            number: 0,
            blocks: 1,
            bytes: 256,
        };
        assert_eq!(desk.book.snapshot_len(&zt), size);
        for (len, number) in [(0, 81), (194, 81), (255, 81), (256, 0), (257, 0), (2000, 0)] {
            let mut output = vec![0xEE; len];
            let told = desk.book.snapshot(&zt, &mut output);
            if number == 0 {
                assert_eq!(told, size);
                assert!(output[256..].iter().all(|&byte| byte == 0xEE));
            } else {
                assert_eq!(told, SnapshotSize::refused(number));
                assert_eq!(output, vec![0xEE; len]);
            }
        }
        for unknown in [
            &b"ZT"[..],
            b"zt         ",
            b"XX         ",
            b"",
            b"ZT          ",
        ] {
            let refused = SnapshotSize::refused(10);
            assert_eq!(desk.book.snapshot_len(unknown), refused);
            assert_eq!(desk.book.snapshot(unknown, &mut [0; 2000]), refused);
            assert_eq!(desk.book.snapshot(unknown, &mut []), refused);
        }
    });
}
