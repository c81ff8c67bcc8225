//! What source document 000 asks of a block and its messages (check 78), and what has no place in our
//! form (check 79).

use super::fields::Fields;
use super::message::{self, Body, Header, Own, Quote, Round};
use super::mistake;
use crate::terms::{number, BLOCK_MAX, FINRA, PROCESSOR};

const BLOCK_HEADER_LEN: usize = 10;
/// 4.3: 1,000 bytes "inclusive of Block Separator", which is not lent.
const LONGEST: usize = 998;
const NANOS_IN_SECOND: u32 = 1_000_000_000;
/// 7.0: $92,233,720,368.547758, six decimals implied.
const PRICE_MAX: u64 = 92_233_720_368_547_758;

/// A block that follows 000, every message of which has a place in our form.
pub struct Block<'a> {
    pub sequence: u32,
    pub quotes: Vec<(Header, Quote<'a>)>,
}

/// 78 of the whole block, then 79.
pub fn read<const M: u8>(block: &[u8]) -> Result<Block<'_>, u8> {
    let (sequence, messages) = split::<M>(block).ok_or(number::VENUE_BLOCK)?;
    let mut quotes = Vec::new();
    let mut unplaced = false;
    let count = messages.len();
    for (i, message) in messages.into_iter().enumerate() {
        let (header, body) = message::read::<M>(message).ok_or(number::VENUE_BLOCK)?;
        if !follows::<M>(&header, &body, i, count, sequence) {
            return Err(number::VENUE_BLOCK);
        }
        match body {
            Body::Quote(quote) if has_place::<M>(&header, &quote) => quotes.push((header, quote)),
            Body::Unread if M == mistake::UNREAD_PASSED_OVER => {}
            _ => unplaced = true,
        }
        if unplaced && M == mistake::UNPLACED_FIRST {
            return Err(number::VENUE_UNPLACED);
        }
    }
    if unplaced {
        return Err(number::VENUE_UNPLACED);
    }
    Ok(Block { sequence, quotes })
}

/// The sequence number and the messages, if 4.3 to 4.7 are kept.
fn split<const M: u8>(block: &[u8]) -> Option<(u32, Vec<&[u8]>)> {
    let longest = match M {
        mistake::LONGEST_1000 => LONGEST + 2,
        mistake::LONGEST_996 => LONGEST - 2,
        _ => LONGEST,
    };
    let even = block.len().is_multiple_of(2) || M == mistake::ODD_LENGTH_TAKEN;
    if block.len() > longest || !even {
        return None;
    }
    let mut fields = Fields::new(block);
    let version = fields.byte()?;
    let size = usize::from(fields.short()?);
    let sequence = fields.integer()?;
    let count = fields.byte()?;
    let checksum = fields.short()?;
    let summed = match M {
        mistake::CHECKSUM_OF_ITSELF => sum(block),
        _ => sum(block).wrapping_sub(sum(&block[8..10])),
    };
    if version != 0 && M != mistake::VERSION_UNREAD
        || checksum != summed && M != mistake::CHECKSUM_UNREAD
        || count == 0 && M != mistake::NO_MESSAGE_TAKEN
    {
        return None;
    }
    let mut messages = Vec::new();
    while match M {
        mistake::COUNT_UNREAD => fields.rest().len() > 1,
        _ => messages.len() < usize::from(count),
    } {
        let len = usize::from(Fields::new(fields.rest()).short()?);
        if len < message::HEADER_LEN {
            return None;
        }
        messages.push(fields.bytes(len)?);
    }
    let padded = match fields.rest() {
        [] => false,
        [0] => true,
        [_] if M == mistake::PAD_UNREAD => true,
        _ => return None,
    };
    let counted = match M {
        mistake::SIZE_WITHOUT_PAD => block.len() - usize::from(padded),
        _ => block.len(),
    };
    let first = block.len() >= BLOCK_HEADER_LEN + message::HEADER_LEN;
    (size == counted && (first || M == mistake::NO_MESSAGE_TAKEN)).then_some((sequence, messages))
}

fn sum(bytes: &[u8]) -> u16 {
    bytes
        .iter()
        .fold(0, |sum: u16, &byte| sum.wrapping_add(u16::from(byte)))
}

/// Whether message i of a block follows 5.0, 4.4 and 4.7.3, and if it is read 6.3.2 to 6.3.4 and 7.0.
fn follows<const M: u8>(
    header: &Header,
    body: &Body,
    i: usize,
    count: usize,
    sequence: u32,
) -> bool {
    let alone = count == 1 || M == mistake::CONTROL_AMONG_OTHERS;
    let numbered = header.kind != b'I' || sequence == 0 || M == mistake::INQUIRY_NUMBERED;
    header_follows::<M>(header, i)
        && (header.category != b'C' || alone && numbered)
        && match body {
            Body::Quote(quote) => quote_follows::<M>(header.participant == FINRA, quote),
            Body::Malformed => false,
            Body::Unread => true,
        }
}

fn header_follows<const M: u8>(header: &Header, i: usize) -> bool {
    // 5.2
    let known = match header.category {
        b'A' => b"PRW".contains(&header.kind),
        b'C' => b"ACINORTZ5".contains(&header.kind),
        b'Q' => b"APKURMT".contains(&header.kind),
        b'T' => header.kind == b'S',
        _ => false,
    };
    // 5.3
    let letters: &[u8] = match M {
        mistake::ANY_LETTER => b"ABCDEFGHIJKLMNOPQRSTUVWXYZ",
        _ => b"ABCDFGHIJKLMNPSTUVWXYZ",
    };
    // 5.4
    let nanos = header.nanos < NANOS_IN_SECOND || M == mistake::NANOS_UNREAD;
    let populated = match M {
        mistake::TIME_0_TAKEN => true,
        mistake::HALF_TIME_REFUSED => header.seconds > 0 && header.nanos > 0,
        _ => header.seconds > 0 || header.nanos > 0,
    };
    // 5.6
    let id = match M {
        mistake::IDS_UNREAD => usize::from(header.id),
        mistake::IDS_FROM_0 => i,
        _ => i + 1,
    };
    (known || M == mistake::PAIR_UNREAD)
        && letters.contains(&header.participant)
        && nanos
        && populated
        && usize::from(header.id) == id
        && (header.reserved == *b"    " || M == mistake::RESERVED_UNREAD)
        && reference_follows::<M>(header.reference)
}

/// 5.5, and 001's 4.5.9 for the range.
fn reference_follows<const M: u8>(reference: [u8; 8]) -> bool {
    let in_range =
        |byte: &u8| (48..=122).contains(byte) || M == mistake::REFERENCE_SPACES && *byte == b' ';
    match M {
        mistake::REFERENCE_UNREAD => true,
        mistake::REFERENCE_POSITIVE => reference[0] < 128,
        mistake::ZERO_REFERENCE_REFUSED => {
            reference[..2] == [0; 2] && reference[2..].iter().all(in_range)
        }
        _ => reference == [0; 8] || reference[..2] == [0; 2] && reference[2..].iter().all(in_range),
    }
}

fn quote_follows<const M: u8>(finra: bool, quote: &Quote) -> bool {
    let finra_round = quote.is_long() && quote.round.is_some() && quote.items.is_empty();
    let marked = b" BSX".contains(&quote.clear) || M == mistake::MARK_UNREAD;
    let high = quote.items.iter().any(|&(price, _)| price > PRICE_MAX);
    (!finra || finra_round || M == mistake::FINRA_QUOTES)
        && symbol_follows::<M>(quote.symbol)
        && marked
        && (!high || M == mistake::ITEM_PRICE_UNREAD)
        && match &quote.round {
            Some(round) => round_follows::<M>(finra, round),
            None => {
                let idle = quote.items.is_empty() && quote.clear == b' ';
                !idle || M == mistake::IDLE_ODD_TAKEN
            }
        }
}

fn symbol_follows<const M: u8>(symbol: &[u8]) -> bool {
    match M {
        mistake::SYMBOL_UNREAD => true,
        mistake::SYMBOL_BEGINS_WITH_A_LETTER => symbol[0].is_ascii_uppercase(),
        _ => is_text(symbol),
    }
}

/// 4.6.2: printable characters, left justified and padded on the right with spaces.
fn is_text(text: &[u8]) -> bool {
    let filled = text
        .iter()
        .take_while(|byte| byte.is_ascii_graphic())
        .count();
    text[filled..].iter().all(|&byte| byte == b' ')
}

fn round_follows<const M: u8>(finra: bool, round: &Round) -> bool {
    let (bid, offer) = (round.bid.price, round.offer.price);
    let high = bid > PRICE_MAX || offer > PRICE_MAX && M != mistake::OFFER_UNREAD;
    let two_prices = bid > 0 && offer > 0 || M == mistake::ONE_SIDE_COMPARED;
    // 7.0, Market Condition
    let compared = match (round.market(), M) {
        (_, mistake::PRICES_UNCOMPARED) => true,
        (_, mistake::SHORT_UNCOMPARED) if round.own.is_none() => true,
        (b'A', _) => bid > offer,
        (b'B', _) => bid == offer,
        _ => bid < offer,
    };
    (!high || M == mistake::PRICE_UNREAD)
        && (!two_prices || compared)
        && round
            .own
            .as_ref()
            .is_none_or(|own| own_follows::<M>(finra, own))
}

/// 7.0 on the fields of the long round-lot quote.
fn own_follows<const M: u8>(finra: bool, own: &Own) -> bool {
    let indicated = match own.indicator {
        b' ' => !finra,
        b'A' | b'B' => finra,
        _ => false,
    };
    let second_time = match finra {
        true => own.second_time[1] < NANOS_IN_SECOND,
        false => own.second_time == [0, 0],
    };
    (b"ABCEFHLNORUW4".contains(&own.condition) || M == mistake::CONDITION_UNREAD)
        && (b" ABC".contains(&own.retail) || M == mistake::RETAIL_UNREAD)
        && (b" AB".contains(&own.settlement) || M == mistake::SETTLEMENT_UNREAD)
        && (b" AB".contains(&own.market) || M == mistake::MARKET_UNREAD)
        && (is_text(&own.maker) || M == mistake::MAKER_UNREAD)
        && (indicated || M == mistake::INDICATOR_UNREAD)
        && (second_time || M == mistake::SECOND_TIME_UNREAD)
}

/// 79: FINRA's quotes remain in our form, S is no letter of ours, our Q K takes neither 4 nor L, and a
/// message alone in its block must not be over 1,000 bytes with it.
fn has_place<const M: u8>(header: &Header, quote: &Quote) -> bool {
    let ours = match header.participant {
        PROCESSOR => M == mistake::S_TAKEN,
        FINRA => M == mistake::FINRA_TAKEN,
        _ => true,
    };
    let held = match quote.round.as_ref().map(Round::condition) {
        Some(b'4') => M == mistake::CONDITION_4_TAKEN,
        Some(b'L') => M == mistake::CONDITION_L_TAKEN,
        Some(condition) => b"ABCEFHNORUW".contains(&condition),
        None => true,
    };
    let longest = match M {
        mistake::LONGEST_MESSAGE_REFUSED => BLOCK_MAX - 17,
        mistake::LONG_MESSAGE_TAKEN => BLOCK_MAX - 4,
        _ => BLOCK_MAX - 12,
    };
    let few = quote.bids <= 4 && quote.offers <= 4;
    ours && held && super::run::len(quote) <= longest && (few || M != mistake::FIVE_ITEMS)
}
