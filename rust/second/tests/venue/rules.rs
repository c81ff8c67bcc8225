//! Each rule of source document 000 broken alone, and its nearest good neighbour.

use second::venue::build::{self, Header, Odd, Own};

use crate::CONVERTER;

const TIME: [u32; 2] = [1_779_111_000, 972_402_315];

fn header(pair: &[u8; 2]) -> Header {
    Header::new(pair, b'N', TIME)
}

fn ibm<const N: usize>() -> [u8; N] {
    let mut symbol = [b' '; N];
    symbol[..3].copy_from_slice(b"IBM");
    symbol
}

fn short() -> Vec<u8> {
    build::round_short(
        &header(b"QP"),
        ibm(),
        [(1_000, 300), (1_002, 200)],
        &Odd::IDLE,
    )
}

fn long() -> Vec<u8> {
    let sides = [(227_400_000, 250), (227_405_000, 99)];
    build::round_long(&header(b"QK"), ibm(), sides, &Own::new(b'O'), &Odd::IDLE)
}

fn short_odd() -> Vec<u8> {
    build::odd_short(&header(b"QR"), ibm(), &items(1_001))
}

fn long_odd() -> Vec<u8> {
    build::odd_long(&header(b"QM"), ibm(), &items(10_010_000))
}

fn items(price: u64) -> Odd {
    Odd {
        clear: b'S',
        bids: vec![(price, 24)],
        offers: vec![(price + 1, 0)],
    }
}

fn other(pair: &[u8; 2], participant: u8) -> Vec<u8> {
    build::other(&Header::new(pair, participant, TIME), &[])
}

/// The message with bytes written over it.
fn with(mut message: Vec<u8>, at: usize, bytes: &[u8]) -> Vec<u8> {
    message[at..at + bytes.len()].copy_from_slice(bytes);
    message
}

fn number(block: &[u8]) -> u8 {
    (CONVERTER.convert_len)(block).number
}

/// The number of a block of these messages under number 1.
fn of(messages: &[Vec<u8>]) -> u8 {
    number(&build::block(1, messages))
}

fn one(message: Vec<u8>) -> u8 {
    of(&[message])
}

#[test]
fn every_form_has_a_place() {
    for message in [short(), long(), short_odd(), long_odd()] {
        assert_eq!(one(message), 0);
    }
    assert_eq!(of(&[short(), long(), short_odd(), long_odd()]), 0);
}

#[test]
fn the_block() {
    let good = build::block(1, &[short()]);
    let padded = build::block(1, &[long()]);
    assert_eq!((number(&good), number(&padded)), (0, 0));
    assert_eq!(number(&[]), 78);
    assert_eq!(number(&[0; 36]), 78);
    for (at, byte) in [
        (0, 1),
        (0, b'0'),
        (2, 51),
        (2, 53),
        (7, 0),
        (7, 2),
        (9, good[9] ^ 1),
    ] {
        let mut block = good.clone();
        block[at] = byte;
        assert_eq!(number(&block), 78, "{at}");
        if at < 8 {
            second::build::seal_checksum(&mut block);
            assert_eq!(number(&block), 78, "{at} sealed");
        }
    }
    // a pad byte that is not zero, none, and one too many
    let mut block = padded.clone();
    *block.last_mut().expect("a pad byte") = 1;
    build::seal(&mut block);
    assert_eq!(number(&block), 78);
    for more in [&[][..], &[0, 0]] {
        let mut block = padded[..padded.len() - 1].to_vec();
        block.extend(more);
        build::seal(&mut block);
        assert_eq!(number(&block), 78);
    }
    for more in [&[0][..], &[0, 0]] {
        let mut block = [&good[..], more].concat();
        build::seal(&mut block);
        assert_eq!(number(&block), 78);
    }
    // the separator is not lent
    assert_eq!(number(&[&[0xA5, 0x5A], &good[..]].concat()), 78);
}

#[test]
fn the_longest_block() {
    let clear = Odd {
        clear: b'S',
        ..Odd::IDLE
    };
    let odd = |bids: usize| {
        let odd = Odd {
            bids: vec![(1_001, 1); bids],
            ..clear.clone()
        };
        build::odd_short(&header(b"QR"), ibm(), &odd)
    };
    let longest: Vec<Vec<u8>> = [vec![short(); 10], vec![odd(0); 15], vec![odd(8)]].concat();
    assert_eq!(build::block(1, &longest).len(), 998);
    assert_eq!(of(&longest), 0);
    let longer: Vec<Vec<u8>> = [vec![short(); 9], vec![odd(0); 18]].concat();
    assert_eq!(build::block(1, &longer).len(), 1_000);
    assert_eq!(of(&longer), 78);
}

#[test]
fn message_headers() {
    for pair in [b"QS", b"qP", b"AS", b"CB", b"TQ", b"BP"] {
        assert_eq!(one(with(short(), 2, pair)), 78);
    }
    for byte in *b"EOQRn@[" {
        assert_eq!(one(with(short(), 4, &[byte])), 78);
    }
    for byte in *b"ABCFGHIJKLMNPTUVWXYZ" {
        assert_eq!(one(with(short(), 4, &[byte])), 0);
    }
    assert_eq!(one(with(short(), 9, &1_000_000_000u32.to_be_bytes())), 78);
    assert_eq!(one(with(short(), 9, &999_999_999u32.to_be_bytes())), 0);
    assert_eq!(one(with(short(), 5, &[0; 8])), 78);
    assert_eq!(one(with(short(), 5, &[0; 4])), 0);
    assert_eq!(one(with(short(), 9, &[0; 4])), 0);
    for at in 14..18 {
        assert_eq!(one(with(short(), at, &[0])), 78);
    }
    for (reference, number) in [
        (b"\0\x00123AbC", 0),
        (b"\0\x00000000", 0),
        (b"\0\0zzzzzz", 0),
        (b"\0\0zzzzz{", 78),
        (b"\0\0/00000", 78),
        (b"\0\0 12345", 78),
        (b"\0\x01123AbC", 78),
        (b"\x80\x00123AbC", 78),
        (b"\0\0\0\0\0\0\0\x07", 78),
    ] {
        assert_eq!(one(with(short(), 18, reference)), number, "{reference:?}");
    }
    let mut block = build::block(1, &[short(), short()]);
    block[10 + 42 + 13] = 1;
    build::seal(&mut block);
    assert_eq!(number(&block), 78);
}

#[test]
fn control_messages() {
    for pair in [b"CA", b"CC", b"CN", b"CO", b"CR", b"CT", b"CZ", b"C5"] {
        assert_eq!(one(other(pair, b'N')), 79);
        assert_eq!(of(&[short(), other(pair, b'N')]), 78);
        assert_eq!(of(&[other(pair, b'N'), short()]), 78);
    }
    assert_eq!(one(other(b"CI", b'N')), 78);
    assert_eq!(number(&build::block(0, &[other(b"CI", b'N')])), 79);
}

#[test]
fn quotes() {
    // lengths
    for at in [40, 41] {
        assert_eq!(one(with(short(), at, &[1])), 78);
    }
    for mut message in [short(), long(), short_odd(), long_odd()] {
        message.push(0);
        assert_eq!(one(message.clone()), 78);
        message.truncate(message.len() - 2);
        assert_eq!(one(message), 78);
    }
    // symbols
    for symbol in [b"I M  ", b" IBM ", b"IBM \x1F", b"IBM \x7F"] {
        assert_eq!(one(with(short(), 26, symbol)), 78);
    }
    for symbol in [b"     ", b"01N  ", b"ABCD~"] {
        assert_eq!(one(with(short(), 26, symbol)), 0);
    }
    assert_eq!(one(with(long(), 26, b"ABCDEFpA.CL")), 0);
    assert_eq!(one(with(long(), 36, b"!")), 78);
    // clear marks
    for (message, at) in [
        (short(), 39),
        (long(), 78),
        (short_odd(), 31),
        (long_odd(), 37),
    ] {
        for mark in *b" BSX" {
            assert_eq!(one(with(message.clone(), at, &[mark])), 0);
        }
        for mark in *b"?b\0A" {
            assert_eq!(one(with(message.clone(), at, &[mark])), 78);
        }
    }
    let idle = build::odd_short(&header(b"QR"), ibm(), &Odd::IDLE);
    assert_eq!(one(idle.clone()), 78);
    assert_eq!(one(with(idle, 31, b"B")), 0);
}

#[test]
fn round_quotes() {
    for condition in *b"ABCEFHNORUW" {
        assert_eq!(one(with(long(), 37, &[condition])), 0);
    }
    for condition in *b"4L" {
        assert_eq!(one(with(long(), 37, &[condition])), 79);
    }
    for condition in *b"DGP5 \0" {
        assert_eq!(one(with(long(), 37, &[condition])), 78);
    }
    for (at, good, bad) in [
        (62, b" ABC", b"Da\0"),
        (63, b" AB ", b"Ca\0"),
        (69, b"    ", b"AB\0"),
    ] {
        assert!(good.iter().all(|&code| one(with(long(), at, &[code])) == 0));
        assert!(bad.iter().all(|&code| one(with(long(), at, &[code])) == 78));
    }
    let most: u64 = 92_233_720_368_547_758;
    let alone = with(long(), 50, &[0; 8]);
    assert_eq!(one(with(alone.clone(), 38, &most.to_be_bytes())), 0);
    assert_eq!(one(with(alone, 38, &(most + 1).to_be_bytes())), 78);
    assert_eq!(one(with(long(), 50, &most.to_be_bytes())), 0);
    assert_eq!(one(with(long(), 50, &(most + 1).to_be_bytes())), 78);
    assert_eq!(one(with(long_odd(), 40, &most.to_be_bytes())), 0);
    assert_eq!(one(with(long_odd(), 49, &(most + 1).to_be_bytes())), 78);
    // the market condition: bid below, equal to and above the offer
    for (market, numbers) in [
        (b' ', [0, 78, 78]),
        (b'A', [78, 78, 0]),
        (b'B', [78, 0, 78]),
    ] {
        for (bid, number) in [227_404_999u64, 227_405_000, 227_405_001]
            .into_iter()
            .zip(numbers)
        {
            let message = with(with(long(), 64, &[market]), 38, &bid.to_be_bytes());
            assert_eq!(one(message), number);
        }
        assert_eq!(one(with(with(long(), 64, &[market]), 38, &[0; 8])), 0);
    }
    assert_eq!(one(with(long(), 64, b"C")), 78);
    for (bid, number) in [(1_001u16, 0), (1_002, 78), (1_003, 78), (0, 0)] {
        assert_eq!(one(with(short(), 31, &bid.to_be_bytes())), number);
    }
    assert_eq!(one(with(short(), 35, &[0; 2])), 0);
    // the maker and the second time
    assert_eq!(one(with(long(), 65, b"FNRA")), 0);
    assert_eq!(one(with(long(), 65, b"A B ")), 78);
    for at in 70..78 {
        assert_eq!(one(with(long(), at, &[1])), 78);
    }
}

#[test]
fn finra() {
    for message in [short(), short_odd(), long_odd(), long()] {
        assert_eq!(one(with(message, 4, b"D")), 78);
    }
    let finra = |indicator: u8, nanos: u32| {
        let message = with(with(long(), 4, b"D"), 69, &[indicator]);
        with(message, 74, &nanos.to_be_bytes())
    };
    assert_eq!(one(finra(b'A', 0)), 79);
    assert_eq!(one(finra(b'B', 999_999_999)), 79);
    assert_eq!(one(finra(b'B', 1_000_000_000)), 78);
    assert_eq!(one(finra(b'C', 0)), 78);
    let mut odd = with(finra(b'A', 0), 79, &[1]);
    odd.extend([0; 9]);
    assert_eq!(one(odd), 78);
}

#[test]
fn what_has_no_place() {
    for (pair, participant) in [
        (b"QU", b'D'),
        (b"QT", b'D'),
        (b"QA", b'N'),
        (b"TS", b'N'),
        (b"AP", b'S'),
    ] {
        assert_eq!(one(other(pair, participant)), 79);
    }
    assert_eq!(one(with(short(), 4, b"S")), 79);
    for (bids, offers, number) in [(40, 37, 0), (40, 38, 79), (255, 0, 79)] {
        let odd = Odd {
            clear: b' ',
            bids: vec![(1_001, 1); bids],
            offers: vec![(1_001, 1); offers],
        };
        let message = build::round_short(&header(b"QP"), ibm(), [(0, 0); 2], &odd);
        assert_eq!(one(message), number);
    }
    for (bids, number) in [(79, 0), (80, 79)] {
        let odd = Odd {
            bids: vec![(1_001, 1); bids],
            ..Odd::IDLE
        };
        assert_eq!(one(build::odd_short(&header(b"QR"), ibm(), &odd)), number);
    }
    // 79 waits for the 78 of the whole block
    assert_eq!(of(&[other(b"QA", b'N'), with(short(), 39, b"?")]), 78);
    assert_eq!(of(&[other(b"QA", b'N'), short()]), 79);
}
