//! Venues' blocks (source document 000) with what becomes of them: quotes are drawn as values and built
//! in both forms, and a broken rule says which number it must give. So a converter is held to something
//! that reads no venue's block.

use super::random::Random;
use crate::build::{self as ours, symbol};
use crate::terms::{number, SYMBOL_LEN};
use crate::venue::build::{self as theirs, Header, Odd, Own, Shown};
use crate::venue::Converting;

/// The symbols that are listed, with their round lots.
pub const LISTED: [(&str, u32); 6] = [
    ("IBM", 100),
    ("BRK.A", 1),
    ("ZT", 25),
    ("ABCDEFpA.CL", 10),
    ("TEN", 10),
    ("FIFTY", 50),
];
const UNLISTED: [&str; 6] = ["IBMX", "01N", "", "zzz", "~!#$%", "AAAAAAAAAAA"];

const PARTICIPANTS: &[u8] = b"ABCFGHIJKLMNPTUVWXYZ";
const PRICE_MAX: u64 = 92_233_720_368_547_758;
/// Bytes that a venue's block may have.
const LONGEST: usize = 998;

/// What a converter must answer: the number, and with 0 the messages of the run.
pub struct Foretold {
    /// 0, 78 or 79.
    pub number: u8,
    /// The block's sequence number.
    pub sequence: u32,
    /// The block's messages in our form.
    pub messages: Vec<Vec<u8>>,
}

/// A quote in both forms.
struct Drawn {
    round: bool,
    long: bool,
    theirs: Vec<u8>,
    ours: Vec<u8>,
}

/// The next block that the random numbers give, with what becomes of it.
pub fn venue(random: &mut Random) -> (Converting, Foretold) {
    let mut quotes = draw_quotes(random);
    let mut foretold = Foretold {
        number: number::DONE,
        sequence: draw_sequence(random),
        messages: quotes.iter().map(|quote| quote.ours.clone()).collect(),
    };
    let mut messages: Vec<Vec<u8>> = quotes.iter().map(|quote| quote.theirs.clone()).collect();
    if random.percent(12) {
        foretold.number = unplace(random, &mut quotes, &mut messages, foretold.sequence);
    }
    if random.percent(40) && break_message(random, &quotes, &mut messages, foretold.sequence) {
        foretold.number = number::VENUE_BLOCK;
    }
    let mut block = theirs::block(foretold.sequence, &messages);
    if block.len() > LONGEST {
        foretold.number = number::VENUE_BLOCK;
    } else if random.percent(15) {
        break_block(random, &mut block);
        foretold.number = number::VENUE_BLOCK;
    }
    let room = draw_room(random, &foretold.messages);
    (Converting { block, room }, foretold)
}

/// Any bytes, or a venue's block with some bytes altered, mostly under a right checksum: nothing is
/// foretold of it.
pub fn damaged_venue(random: &mut Random) -> Converting {
    let (mut converting, _) = venue(random);
    let block = &mut converting.block;
    if random.percent(3) {
        let len = random.below(1_100);
        *block = random.bytes(len);
    }
    for _ in 0..1 + random.below(3) {
        if block.is_empty() {
            break;
        }
        let at = random.below(block.len());
        block[at] = match random.below(4) {
            0 => random.byte(),
            1 => block[at] ^ 1 << random.below(8),
            2 => random.pick(b"\x00 ABCDEIKLMNPQRSTUX4\xFF"),
            _ => block[at].wrapping_add(1),
        };
    }
    if random.percent(80) && block.len() >= 10 {
        match random.percent(50) {
            true => theirs::seal(block),
            false => ours::seal_checksum(block),
        }
    }
    converting
}

/// A block for a list of calls: half of the quotes name symbols that are listed there.
pub fn naming(random: &mut Random, listed: &[[u8; SYMBOL_LEN]]) -> Converting {
    let mut converting = match random.percent(25) {
        true => damaged_venue(random),
        false => venue(random).0,
    };
    let block = &mut converting.block;
    let mut at = 10;
    while let Some(&[first, second, b'Q', kind]) = block.get(at..at + 4) {
        let width = match kind {
            b'P' | b'R' => 5,
            _ => SYMBOL_LEN,
        };
        let fits: Vec<_> = listed
            .iter()
            .filter(|symbol| symbol[width..].iter().all(|&byte| byte == b' '))
            .collect();
        let field = block.get_mut(at + 26..at + 26 + width);
        if let (Some(field), false, true) = (field, fits.is_empty(), random.percent(50)) {
            field.copy_from_slice(&random.pick(&fits)[..width]);
        }
        at += usize::from(u16::from_be_bytes([first, second])).max(26);
    }
    // A block whose checksum was right has a right one again.
    if random.percent(95) && block.len() >= 10 {
        ours::seal_checksum(block);
    }
    converting
}

fn draw_sequence(random: &mut Random) -> u32 {
    let any = random.number() as u32;
    random.pick(&[0, 1, 7, any, u32::MAX - 5, u32::MAX])
}

/// Mostly just enough for all, one byte less, or more.
fn draw_room(random: &mut Random, messages: &[Vec<u8>]) -> usize {
    let all: usize = messages.iter().map(|message| 2 + message.len()).sum();
    match random.weighted(&[30, 30, 20, 10, 10]) {
        0 => 3_600,
        1 => all + 10 * (1 + all / 940),
        2 => (all + 10 * (1 + all / 960)).saturating_sub(random.below(3)),
        3 => random.below(3_700),
        _ => 0,
    }
}

/// Quotes that fit a block together: some, as many as fit, or a few long ones.
fn draw_quotes(random: &mut Random) -> Vec<Drawn> {
    let theme = random.weighted(&[50, 35, 15]);
    let most = match theme {
        0 => 1 + random.below(4),
        _ => 40,
    };
    let mut left = LONGEST - 10;
    let mut quotes = Vec::new();
    while quotes.len() < most {
        let items = match theme {
            2 if random.percent(40) => 40 + random.below(38),
            _ => 9,
        };
        let quote = draw_quote(random, items);
        if quote.theirs.len() > left {
            // seldom one byte too many
            if quotes.is_empty() || random.percent(10) {
                quotes.push(quote);
            }
            break;
        }
        left -= quote.theirs.len();
        quotes.push(quote);
    }
    quotes
}

fn draw_quote(random: &mut Random, items: usize) -> Drawn {
    let (round, long) = (random.percent(60), random.percent(50));
    draw_form(random, round, long, items)
}

/// A quote of this form that has a place in our form.
fn draw_form(random: &mut Random, round: bool, long: bool, items: usize) -> Drawn {
    let pair = match (round, long) {
        (true, false) => b"QP",
        (true, true) => b"QK",
        (false, false) => b"QR",
        (false, true) => b"QM",
    };
    let header = draw_header(random, pair, PARTICIPANTS);
    let width = if long { SYMBOL_LEN } else { 5 };
    let (name, lot) = draw_symbol(random, width);
    let odd = draw_odd(random, long, items, !round);
    let our_odd = ours::Odd {
        clear: odd.clear,
        bids: scaled(long, &odd.bids),
        offers: scaled(long, &odd.offers),
    };
    let time = u64::from(header.time[0]) * 1_000_000_000 + u64::from(header.time[1]);
    if !round {
        let theirs = match long {
            true => theirs::odd_long(&header, symbol(name), &odd),
            false => theirs::odd_short(&header, short(name), &odd),
        };
        let mut ours = ours::odd_lot(header.participant, time, symbol(name), &our_odd);
        ours[12..20].copy_from_slice(&header.reference);
        return Drawn {
            round,
            long,
            theirs,
            ours,
        };
    }
    let sides = draw_sides(random, long);
    let mut own = Own::new(if long {
        random.pick(b"ABCEFHNORUW")
    } else {
        b'R'
    });
    if long {
        own.retail = random.pick(b"    ABC");
        own.settlement = random.pick(b"   AB");
        own.maker = random.pick(&[*b"    ", *b"FNRA", *b"A   ", *b"~!  "]);
    }
    let sides = match compare(sides) {
        Compared::None | Compared::Normal => sides,
        // a short quote's market is normal
        _ if !long => [sides[0], (sides[0].0 + 1, sides[1].1)],
        Compared::Crossed => {
            own.market = b'A';
            sides
        }
        Compared::Locked => {
            own.market = b'B';
            sides
        }
    };
    let sides = if !long && sides[1].0 > 65_535 {
        [(65_534, sides[0].1), (65_535, sides[1].1)]
    } else {
        sides
    };
    if long && random.percent(5) && compare(sides) == Compared::None {
        own.market = random.pick(b"AB");
    }
    let theirs = match long {
        true => theirs::round_long(&header, symbol(name), sides, &own, &odd),
        false => theirs::round_short(&header, short(name), sides, &odd),
    };
    let ours_of = |(price, shares): Shown| (scale(long, price), shares / lot.unwrap_or(1));
    let mut ours = ours::round_lot(
        &ours::Round {
            letter: header.participant,
            time,
            symbol: symbol(name),
            condition: own.condition,
            bid: ours_of(sides[0]),
            offer: ours_of(sides[1]),
        },
        &our_odd,
    );
    ours[12..20].copy_from_slice(&header.reference);
    Drawn {
        round,
        long,
        theirs,
        ours,
    }
}

fn draw_header(random: &mut Random, pair: &[u8; 2], participants: &[u8]) -> Header {
    let any = random.number() as u32;
    let nanos = random.pick(&[0, 1, 972_402_315, 999_999_999, any % 1_000_000_000]);
    let seconds = random.pick(&[1, 1_779_111_000, any, u32::MAX]);
    let mut header = Header::new(pair, random.pick(participants), [seconds, nanos]);
    if random.percent(10) {
        header.time = [0, 1 + any % 999_999_999];
    }
    if random.percent(40) {
        header.reference = [0; 8];
        for byte in &mut header.reference[2..] {
            *byte = random.pick(b"0129ABZabz:@[`");
        }
    }
    header
}

/// A name of at most so many bytes, and its round lot if it is listed.
fn draw_symbol(random: &mut Random, width: usize) -> (&'static str, Option<u32>) {
    loop {
        let (name, lot) = match random.percent(80) {
            true => {
                let (name, lot) = random.pick(&LISTED);
                (name, Some(lot))
            }
            false => (random.pick(&UNLISTED), None),
        };
        if name.len() <= width {
            return (name, lot);
        }
    }
}

fn short(name: &str) -> [u8; 5] {
    let mut bytes = [b' '; 5];
    bytes[..name.len()].copy_from_slice(name.as_bytes());
    bytes
}

/// 4.6.1: two implied decimals in a short price, six in a long one.
fn scale(long: bool, price: u64) -> u64 {
    if long {
        price
    } else {
        price * 10_000
    }
}

fn scaled(long: bool, items: &[Shown]) -> Vec<Shown> {
    items
        .iter()
        .map(|&(price, shares)| (scale(long, price), shares))
        .collect()
}

fn draw_price(random: &mut Random, long: bool) -> u64 {
    let near = 1_000 + random.below(8) as u64;
    match long {
        false => random.pick(&[0, 1, near, near, near, 65_534, 65_535]),
        true => random.pick(&[0, 1, near, 10_000 * near, PRICE_MAX - 1, PRICE_MAX]),
    }
}

fn draw_shares(random: &mut Random, long: bool) -> u32 {
    let some = random.below(1_000) as u32;
    match long {
        false => random.pick(&[0, 1, 99, 100, some, 24, 25, 49, 50, 65_535]),
        true => random.pick(&[0, 1, 99, 100, some, 250, 10_000_000, u32::MAX]),
    }
}

fn draw_sides(random: &mut Random, long: bool) -> [Shown; 2] {
    let mut side = || (draw_price(random, long), draw_shares(random, long));
    [side(), side()]
}

#[derive(PartialEq)]
enum Compared {
    None,
    Normal,
    Crossed,
    Locked,
}

/// How bid and offer stand to each other, if both have a price.
fn compare([(bid, _), (offer, _)]: [Shown; 2]) -> Compared {
    match bid.cmp(&offer) {
        _ if bid == 0 || offer == 0 => Compared::None,
        std::cmp::Ordering::Less => Compared::Normal,
        std::cmp::Ordering::Greater => Compared::Crossed,
        std::cmp::Ordering::Equal => Compared::Locked,
    }
}

/// Up to so many appendages, which stand on both sides; if asked for, they or a clear mark.
fn draw_odd(random: &mut Random, long: bool, most: usize, asks: bool) -> Odd {
    let mut odd = Odd::IDLE;
    odd.clear = random.pick(b"   BSX");
    let items = match random.percent(50) {
        _ if most > 9 => most,
        true => 0,
        false => random.below(most),
    };
    for _ in 0..items {
        let item = (draw_price(random, long), u32::from(random.byte()));
        match random.percent(50) {
            true => odd.bids.push(item),
            false => odd.offers.push(item),
        }
    }
    if asks && items == 0 && odd.clear == b' ' {
        odd.clear = random.pick(b"BSX");
    }
    odd
}

// ---- 79

/// Puts a message without a place among the others, or makes one such; gives 79, or 78 for a control
/// message among others.
fn unplace(
    random: &mut Random,
    quotes: &mut Vec<Drawn>,
    messages: &mut Vec<Vec<u8>>,
    sequence: u32,
) -> u8 {
    let mut put = |random: &mut Random, messages: &mut Vec<Vec<u8>>, message: Vec<u8>| {
        let at = random.below(messages.len());
        quotes.remove(at);
        messages[at] = message;
        // the message stands no longer for a drawn quote
        quotes.insert(
            at,
            Drawn {
                round: false,
                long: false,
                theirs: Vec::new(),
                ours: Vec::new(),
            },
        );
    };
    let name = symbol("IBM");
    match random.below(7) {
        0 => {
            let drawn = draw_quote(random, 5);
            let mut message = drawn.theirs;
            message[4] = b'S';
            put(random, messages, message);
        }
        1 => {
            let header = draw_header(random, b"QK", b"D");
            let mut own = Own::new(b'R');
            own.indicator = random.pick(b"AB");
            own.second_time = [random.pick(&[0, 7]), random.pick(&[0, 999_999_999])];
            let sides = [(1_000_000, 100), (2_000_000, 100)];
            put(
                random,
                messages,
                theirs::round_long(&header, name, sides, &own, &Odd::IDLE),
            );
        }
        2 => {
            let header = draw_header(random, b"QK", PARTICIPANTS);
            let own = Own::new(random.pick(b"4L"));
            let sides = [(1_000_000, 100), (2_000_000, 100)];
            put(
                random,
                messages,
                theirs::round_long(&header, name, sides, &own, &Odd::IDLE),
            );
        }
        // Over 988 bytes in our form.
        3 => {
            let header = draw_header(random, b"QP", PARTICIPANTS);
            let odd = Odd {
                clear: b'X',
                bids: vec![(1_000, 5); 78],
                offers: vec![(1_001, 5); random.below(3)],
            };
            *messages = vec![theirs::round_short(
                &header,
                short("IBM"),
                [(0, 0); 2],
                &odd,
            )];
            quotes.truncate(1);
            quotes[0].theirs.clear();
        }
        4 => {
            let pair = random.pick(&[b"QU", b"QT", b"QA", b"TS", b"AP", b"AR", b"AW"]);
            let header = draw_header(random, pair, b"DNSP");
            let body = vec![b'?'; random.below(4)];
            put(random, messages, theirs::other(&header, &body));
        }
        // A control message alone.
        5 => {
            let pair = random.pick(&[
                b"CA", b"CC", b"CI", b"CN", b"CO", b"CR", b"CT", b"CZ", b"C5",
            ]);
            let header = draw_header(random, pair, b"DNS");
            *messages = vec![theirs::other(&header, &[])];
            quotes.truncate(1);
            quotes[0].theirs.clear();
            if pair == b"CI" && sequence != 0 {
                return number::VENUE_BLOCK;
            }
        }
        // And among others.
        _ => {
            let header = draw_header(random, random_control(sequence), b"DNS");
            put(random, messages, theirs::other(&header, &[]));
            if messages.len() > 1 {
                return number::VENUE_BLOCK;
            }
        }
    }
    number::VENUE_UNPLACED
}

fn random_control(sequence: u32) -> &'static [u8; 2] {
    match sequence % 3 {
        0 => b"CT",
        1 => b"CO",
        _ => b"C5",
    }
}

// ---- 78

/// Breaks one rule of one message, if that message has it.
fn break_message(
    random: &mut Random,
    quotes: &[Drawn],
    messages: &mut [Vec<u8>],
    sequence: u32,
) -> bool {
    let at = random.below(messages.len());
    let message = &mut messages[at];
    let drawn = &quotes[at];
    let intact = !drawn.theirs.is_empty();
    let choice = random.below(if intact { 24 } else { 9 });
    match choice {
        0 => {
            let pair = random.pick(&[
                b"QS", b"QE", b"QW", b"C\0", b"TQ", b"AK", b"BP", b"\0P", b"qP",
            ]);
            message[2..4].copy_from_slice(pair);
        }
        1 => message[4] = random.pick(b"EOQR@[ajn\0\xFF"),
        2 => {
            let nanos: u32 = random.pick(&[1_000_000_000, 1_000_000_001, u32::MAX]);
            message[9..13].copy_from_slice(&nanos.to_be_bytes());
        }
        3 => message[5..13].fill(0),
        4 => message[14 + random.below(4)] = random.pick(b"\0!A\xA0"),
        5 => message[18..26].copy_from_slice(b"\x80\x00123AbC"),
        6 => message[18..26].copy_from_slice(b"\x00\x01123AbC"),
        7 => {
            message[18..26].copy_from_slice(b"\x00\x00123AbC");
            message[20 + random.below(6)] = random.pick(b"/{ \0\xFF");
        }
        8 => message[18..26].copy_from_slice(&[0, 0, 0, 0, 0, 0, 0, 7]),
        // The fields of a quote.
        9 => {
            let mark = mark_at(drawn);
            message[mark] = random.pick(b"?bsxAC\0!");
        }
        10 => message[26] = random.pick(b"\0\x1F\x7F\x80"),
        11 => message[26..29].copy_from_slice(b"A B"),
        12 => message[26..28].copy_from_slice(b" B"),
        13 => message[mark_at(drawn) + 1] ^= 1 << random.below(8),
        14 => message.push(0),
        15 => {
            message.pop();
        }
        16 if drawn.round && drawn.long => message[37] = random.pick(b"DGIJKMPQSTVXYZ5r \0"),
        17 if drawn.long => return break_price(random, drawn, message),
        18 if drawn.round && drawn.long => message[62] = random.pick(b"Da!\0"),
        19 if drawn.round && drawn.long => message[63] = random.pick(b"Ca!\0"),
        20 if drawn.round && drawn.long => message[64] = random.pick(b"Ca!\0"),
        21 if drawn.round => break_market(random, drawn, message),
        22 if drawn.round && drawn.long => match random.below(3) {
            0 => {
                message[65..69].copy_from_slice(random.pick(&[b"A B ", b" AB ", b"AB\0 ", b"   A"]))
            }
            1 => message[69] = random.pick(b"ABa\0"),
            _ => message[70 + random.below(8)] = 1 + random.byte() % 255,
        },
        // From FINRA, a short or an odd-lot quote, or one with appendages.
        23 if !(drawn.round && drawn.long) => message[4] = b'D',
        23 if message.len() > 81 => {
            message[4] = b'D';
            message[69] = b'A';
        }
        16.. if !drawn.round && sequence.is_multiple_of(2) => {
            let mark = mark_at(drawn);
            message.truncate(mark);
            message.extend(b" \0\0");
        }
        _ => return false,
    }
    true
}

fn mark_at(drawn: &Drawn) -> usize {
    match (drawn.round, drawn.long) {
        (true, false) => 39,
        (true, true) => 78,
        (false, false) => 31,
        (false, true) => 37,
    }
}

/// A long price above the maximum.
fn break_price(random: &mut Random, drawn: &Drawn, message: &mut [u8]) -> bool {
    let price: u64 = random.pick(&[PRICE_MAX + 1, 1 << 63, u64::MAX]);
    let first = mark_at(drawn) + 3;
    let items = (message.len() - first) / 9;
    let at = match random.below(2) {
        0 if drawn.round => random.pick(&[38, 50]),
        _ if items > 0 => first + 9 * random.below(items),
        _ => return false,
    };
    message[at..at + 8].copy_from_slice(&price.to_be_bytes());
    true
}

/// Prices that the market condition does not allow.
fn break_market(random: &mut Random, drawn: &Drawn, message: &mut [u8]) {
    if !drawn.long {
        let (bid, offer): (u16, u16) = random.pick(&[(1_000, 1_000), (1_001, 1_000), (65_535, 1)]);
        message[31..33].copy_from_slice(&bid.to_be_bytes());
        message[35..37].copy_from_slice(&offer.to_be_bytes());
        return;
    }
    let (market, bid, offer): (u8, u64, u64) = random.pick(&[
        (b' ', 1_000, 1_000),
        (b' ', 1_001, 1_000),
        (b'A', 1_000, 1_000),
        (b'A', 999, 1_000),
        (b'B', 999, 1_000),
        (b'B', 1_001, 1_000),
    ]);
    message[38..46].copy_from_slice(&bid.to_be_bytes());
    message[50..58].copy_from_slice(&offer.to_be_bytes());
    message[64] = market;
}

/// Breaks one rule of the block around its messages.
fn break_block(random: &mut Random, block: &mut Vec<u8>) {
    match random.below(13) {
        0 => {
            block[0] = random.pick(&[1, b'0', 0xA5, 255]);
            ours::seal_checksum(block);
        }
        1 => {
            let size = block.len() as i32 + random.pick(&[-2, -1, 1, 2, 256]);
            block[1..3].copy_from_slice(&(size as u16).to_be_bytes());
            ours::seal_checksum(block);
        }
        2 => block[8 + random.below(2)] ^= 1 << random.below(8),
        3 => {
            block[7] = match random.below(4) {
                0 => 0,
                1 => block[7] - 1,
                2 => block[7] + 1,
                _ => 255,
            };
            ours::seal_checksum(block);
        }
        // The first message's length, and so where the others stand.
        4 => {
            let len: u16 = random.pick(&[0, 1, 25, 999, 65_535]);
            block[10..12].copy_from_slice(&len.to_be_bytes());
            ours::seal_checksum(block);
        }
        5 => {
            block[23] = random.pick(&[0, 2, 255]);
            ours::seal_checksum(block);
        }
        6 => {
            block.push(0);
            theirs::seal(block);
        }
        7 => {
            block.extend([0, 0]);
            theirs::seal(block);
        }
        8 => {
            block.pop();
            theirs::seal(block);
        }
        9 => block.truncate(random.below(36)),
        // No message.
        11 => {
            block.truncate(10);
            block[7] = 0;
            theirs::seal(block);
        }
        // A pad byte that is not zero, or two bytes behind the messages.
        10 => {
            if padded(block) {
                let last = block.len() - 1;
                block[last] = random.pick(&[1, b' ', 255]);
            } else {
                block.extend([0, 0]);
            }
            theirs::seal(block);
        }
        // The separator is not part of the block.
        _ => {
            block.splice(..0, [0xA5, 0x5A]);
        }
    }
}

/// Whether the messages, which stand end to end, leave one byte.
fn padded(block: &[u8]) -> bool {
    let mut at = 10;
    for _ in 0..block[7] {
        at += usize::from(u16::from_be_bytes([block[at], block[at + 1]]));
    }
    at + 1 == block.len()
}
