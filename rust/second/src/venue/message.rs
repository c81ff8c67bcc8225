//! A message of source document 000 as values: its header (5.0), and of the four quotes that are read
//! their bodies (6.3.2.1, 6.3.2.2, 6.3.3.1, 6.3.3.2) with appendages (6.3.4.1, 6.3.4.2).

use super::fields::Fields;
use super::mistake;
use crate::terms::SYMBOL_LEN;

/// Bytes of a message header.
pub const HEADER_LEN: usize = 26;

/// The header without its Message Length.
pub struct Header {
    pub category: u8,
    pub kind: u8,
    pub participant: u8,
    pub seconds: u32,
    pub nanos: u32,
    pub id: u8,
    pub reserved: [u8; 4],
    pub reference: [u8; 8],
}

/// The body of a message.
pub enum Body<'a> {
    /// A quote that is read.
    Quote(Quote<'a>),
    /// A quote whose length is not that of its type.
    Malformed,
    /// A type of which only the header is read.
    Unread,
}

/// A quote, short or long.
pub struct Quote<'a> {
    /// As it stands: five bytes or eleven.
    pub symbol: &'a [u8],
    /// None for an odd-lot quote.
    pub round: Option<Round>,
    pub clear: u8,
    pub bids: u8,
    pub offers: u8,
    /// The bids, then the offers: price in millionths, shares.
    pub items: Vec<(u64, u8)>,
}

/// A side of a round-lot quote: price in millionths, size in shares.
#[derive(Clone, Copy)]
pub struct Side {
    pub price: u64,
    pub shares: u32,
}

/// The round-lot part of a quote.
pub struct Round {
    pub bid: Side,
    pub offer: Side,
    /// None for a short quote: it implies condition R, regular settlement and a normal market.
    pub own: Option<Own>,
}

/// What only the long round-lot quote has.
pub struct Own {
    pub condition: u8,
    pub retail: u8,
    pub settlement: u8,
    pub market: u8,
    pub maker: [u8; 4],
    pub indicator: u8,
    pub second_time: [u32; 2],
}

impl Round {
    pub fn condition(&self) -> u8 {
        self.own.as_ref().map_or(b'R', |own| own.condition)
    }

    pub fn market(&self) -> u8 {
        self.own.as_ref().map_or(b' ', |own| own.market)
    }
}

impl Quote<'_> {
    /// The symbol filled up with spaces.
    pub fn our_symbol<const M: u8>(&self) -> [u8; SYMBOL_LEN] {
        let fill = if M == mistake::SYMBOL_FILLED_WITH_ZEROS {
            0
        } else {
            b' '
        };
        let mut symbol = [fill; SYMBOL_LEN];
        symbol[..self.symbol.len()].copy_from_slice(self.symbol);
        symbol
    }

    pub fn is_long(&self) -> bool {
        self.symbol.len() == SYMBOL_LEN
    }
}

/// The header and body of a message that has a header.
pub fn read<const M: u8>(message: &[u8]) -> Option<(Header, Body<'_>)> {
    let mut fields = Fields::new(message);
    fields.short()?;
    let header = Header {
        category: fields.byte()?,
        kind: fields.byte()?,
        participant: fields.byte()?,
        seconds: fields.integer()?,
        nanos: fields.integer()?,
        id: fields.byte()?,
        reserved: fields.chars()?,
        reference: fields.chars()?,
    };
    let quote = match (header.category, header.kind) {
        (b'Q', b'P') => read_round_short::<M>(fields),
        (b'Q', b'K') => read_round_long(fields),
        (b'Q', b'R') => read_odd::<M>(fields, 5),
        (b'Q', b'M') => read_odd::<M>(fields, SYMBOL_LEN),
        _ => return Some((header, Body::Unread)),
    };
    Some((header, quote.map_or(Body::Malformed, Body::Quote)))
}

/// 4.6.1: prices of two bytes have two implied decimals, those of eight have six.
fn short_price<const M: u8>(price: u16) -> u64 {
    u64::from(price)
        * match M {
            mistake::SHORT_PRICE_UNSCALED => 1,
            mistake::SHORT_PRICE_BY_100 => 100,
            _ => 10_000,
        }
}

fn read_round_short<const M: u8>(mut fields: Fields) -> Option<Quote> {
    let symbol = fields.bytes(5)?;
    let mut side = || {
        let price = short_price::<M>(fields.short()?);
        let shares = u32::from(fields.short()?);
        Some(Side { price, shares })
    };
    let (bid, offer) = (side()?, side()?);
    let own = None;
    with_items::<M>(symbol, Some(Round { bid, offer, own }), fields)
}

fn read_round_long(mut fields: Fields) -> Option<Quote> {
    let symbol = fields.bytes(SYMBOL_LEN)?;
    let condition = fields.byte()?;
    let mut side = || {
        let price = fields.long()?;
        let shares = fields.integer()?;
        Some(Side { price, shares })
    };
    let (bid, offer) = (side()?, side()?);
    let own = Some(Own {
        condition,
        retail: fields.byte()?,
        settlement: fields.byte()?,
        market: fields.byte()?,
        maker: fields.chars()?,
        indicator: fields.byte()?,
        second_time: [fields.integer()?, fields.integer()?],
    });
    with_items::<{ mistake::NONE }>(symbol, Some(Round { bid, offer, own }), fields)
}

fn read_odd<const M: u8>(mut fields: Fields, symbol_len: usize) -> Option<Quote> {
    let symbol = fields.bytes(symbol_len)?;
    with_items::<M>(symbol, None, fields)
}

/// The clear mark, the counts and as many appendages, at which the message ends.
fn with_items<'a, const M: u8>(
    symbol: &'a [u8],
    round: Option<Round>,
    mut fields: Fields<'a>,
) -> Option<Quote<'a>> {
    let clear = fields.byte()?;
    let (bids, offers) = (fields.byte()?, fields.byte()?);
    let mut items = Vec::new();
    for _ in 0..usize::from(bids) + usize::from(offers) {
        let price = if symbol.len() == SYMBOL_LEN {
            fields.long()?
        } else {
            short_price::<M>(fields.short()?)
        };
        items.push((price, fields.byte()?));
    }
    fields.rest().is_empty().then_some(Quote {
        symbol,
        round,
        clear,
        bids,
        offers,
        items,
    })
}
