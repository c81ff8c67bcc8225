//! Quotes of source document 000 as messages of document 01, and these as a run of blocks.

use super::message::{Header, Quote, Side};
use super::mistake;
use super::Lots;
use crate::terms::BLOCK_MAX;

const BLOCK_HEADER_LEN: usize = 10;
const OFFSET_LEN: usize = 2;

/// The length of a quote as our message.
pub fn len(quote: &Quote) -> usize {
    let front = if quote.round.is_some() { 60 } else { 36 };
    front + 12 * quote.items.len()
}

/// A quote as our message: P and K become Q K, R and M become Q M.
pub fn message<const M: u8>(header: &Header, quote: &Quote, lots: Lots) -> Vec<u8> {
    let kind = if quote.round.is_some() { b'K' } else { b'M' };
    let mut message = vec![b'Q', kind, header.participant, 0];
    message.extend(time::<M>(header).to_be_bytes());
    message.extend(match M {
        mistake::REFERENCE_DROPPED => [0; 8],
        _ => header.reference,
    });
    let symbol = quote.our_symbol::<M>();
    message.extend(symbol);
    let lot = lots(&symbol);
    if let Some(round) = &quote.round {
        message.push(match M {
            mistake::CONDITION_R => b'R',
            _ => round.condition(),
        });
        for Side { price, shares } in [round.bid, round.offer] {
            message.extend(price.to_be_bytes());
            message.extend(round_size::<M>(shares, lot).to_be_bytes());
        }
    }
    message.push(quote.clear);
    message.extend(match M {
        mistake::COUNTS_EXCHANGED => [quote.offers, quote.bids],
        _ => [quote.bids, quote.offers],
    });
    message.extend(if quote.round.is_some() {
        &[0][..]
    } else {
        &[0, 0]
    });
    for &(price, shares) in &quote.items {
        let shares = u32::from(shares);
        message.extend(price.to_be_bytes());
        message.extend(match M {
            mistake::ODD_DIVIDED => (shares / lot.unwrap_or(1)).to_be_bytes(),
            _ => shares.to_be_bytes(),
        });
    }
    message
}

/// 5.4: "the number of nanoseconds since Epoch".
fn time<const M: u8>(header: &Header) -> u64 {
    let (seconds, nanos) = (u64::from(header.seconds), u64::from(header.nanos));
    match M {
        mistake::NANOS_DROPPED => seconds * 1_000_000_000,
        mistake::TIME_COPIED => seconds << 32 | nanos,
        _ => seconds * 1_000_000_000 + nanos,
    }
}

/// "divided by the symbol's round lot and the rest is dropped; a symbol not listed goes through with
/// its size undivided".
fn round_size<const M: u8>(shares: u32, lot: Option<u32>) -> u32 {
    match (M, lot) {
        (mistake::NOT_DIVIDED, _) => shares,
        (mistake::UNLISTED_NOTHING, None) => 0,
        (_, None) => shares,
        (mistake::ROUNDED_UP, Some(lot)) => shares.div_ceil(lot),
        (mistake::DIVIDED_BY_100, Some(_)) => shares / 100,
        (_, Some(lot)) => shares / lot,
    }
}

/// The messages' positions in each block of the run: "each with as many messages as fit".
fn packed<const M: u8>(lens: &[usize]) -> Vec<std::ops::Range<usize>> {
    let most = match M {
        mistake::CLOSED_AT_999 => BLOCK_MAX - 1,
        mistake::ONE_TO_A_BLOCK => 0,
        _ => BLOCK_MAX,
    };
    let offset = match M {
        mistake::OFFSET_NOT_COUNTED => 0,
        _ => OFFSET_LEN,
    };
    let mut blocks = Vec::new();
    let mut first = 0;
    while first < lens.len() {
        let mut used = BLOCK_HEADER_LEN + OFFSET_LEN + lens[first];
        let mut next = first + 1;
        while next < lens.len() && used + offset + lens[next] <= most {
            used += OFFSET_LEN + lens[next];
            next += 1;
        }
        blocks.push(first..next);
        first = next;
    }
    blocks
}

/// The bytes of the run that carries messages of these lengths.
pub fn needed<const M: u8>(lens: &[usize]) -> usize {
    let blocks = packed::<M>(lens).len();
    let messages: usize = lens.iter().map(|len| OFFSET_LEN + len).sum();
    BLOCK_HEADER_LEN * blocks + messages
}

/// The run of blocks, "the first under the block's own number, the others following on".
pub fn run<const M: u8>(sequence: u32, messages: &[Vec<u8>]) -> Vec<u8> {
    let lens: Vec<usize> = messages.iter().map(Vec::len).collect();
    let mut run = Vec::new();
    let mut number = sequence;
    for block in packed::<M>(&lens) {
        let count = block.len() as u32;
        run.extend(crate::build::block(number, &messages[block]));
        number = match M {
            mistake::NUMBERED_BY_BLOCKS => number.wrapping_add(1),
            mistake::ONE_NUMBER => number,
            _ => number.wrapping_add(count),
        };
    }
    run
}
