//! Fields of messages and the forms of names, as the reviewer reads them.

use crate::terms::SYMBOL_LEN;

/// The ten types of messages.
#[derive(Clone, Copy, PartialEq, Eq, Debug)]
pub enum Kind {
    Inquiry,
    Integrity,
    FinraClose,
    FinraOpen,
    Test,
    RoundLot,
    OddLot,
    FinraOddLot,
    Maker,
    Status,
}

impl Kind {
    /// The kind that category and type give, if it is known.
    pub fn of(message: &[u8]) -> Option<Kind> {
        match &message[..2] {
            b"CI" => Some(Kind::Inquiry),
            b"CT" => Some(Kind::Integrity),
            b"CC" => Some(Kind::FinraClose),
            b"CO" => Some(Kind::FinraOpen),
            b"C5" => Some(Kind::Test),
            b"QK" => Some(Kind::RoundLot),
            b"QM" => Some(Kind::OddLot),
            b"QT" => Some(Kind::FinraOddLot),
            b"QU" => Some(Kind::Maker),
            b"TS" => Some(Kind::Status),
            _ => None,
        }
    }
}

/// A big-endian number of any width.
pub fn number(bytes: &[u8]) -> u64 {
    bytes
        .iter()
        .fold(0, |number, &byte| number << 8 | u64::from(byte))
}

/// The timestamp of a message.
pub fn time_of(message: &[u8]) -> u64 {
    number(&message[4..12])
}

/// The symbol that a message names, if its type has one and it is long enough.
pub fn symbol_of(message: &[u8]) -> Option<&[u8]> {
    match Kind::of(message)? {
        Kind::RoundLot | Kind::OddLot | Kind::FinraOddLot | Kind::Maker | Kind::Status => {
            message.get(20..31)
        }
        _ => None,
    }
}

/// The side of a quote.
#[derive(Clone, Copy, PartialEq, Eq, Debug)]
pub enum Side {
    Bid,
    Offer,
}

/// One side of a quote: price, and size in round lots.
#[derive(Clone, Copy, PartialEq, Eq, Debug)]
pub struct Shown {
    pub price: u64,
    pub size: u32,
}

/// A quote as its message shows it.
#[derive(Clone, Copy, Debug)]
pub struct Quote {
    pub condition: u8,
    pub bid: Shown,
    pub offer: Shown,
    /// The message's timestamp.
    pub time: u64,
}

impl Quote {
    /// The round part of Q K, or the like bytes of Q U.
    pub fn of(message: &[u8]) -> Quote {
        let shown = |at: usize| Shown {
            price: number(&message[at..at + 8]),
            size: number(&message[at + 8..at + 12]) as u32,
        };
        Quote {
            condition: message[31],
            bid: shown(32),
            offer: shown(44),
            time: time_of(message),
        }
    }

    pub fn side(&self, side: Side) -> Shown {
        match side {
            Side::Bid => self.bid,
            Side::Offer => self.offer,
        }
    }

    /// "Both sides 0 and 0."
    pub fn is_empty(&self) -> bool {
        let nothing = Shown { price: 0, size: 0 };
        self.bid == nothing && self.offer == nothing
    }

    /// "A, B, H, O, R, W admit both sides, E the offer, F the bid, C, L, N, U neither."
    pub fn admits(&self, side: Side) -> bool {
        let admitting: &[u8] = match side {
            Side::Bid => b"ABHORWF",
            Side::Offer => b"ABHORWE",
        };
        admitting.contains(&self.condition)
    }

    /// "A side counts if price and size are above zero and the condition admits it."
    pub fn counts(&self, side: Side) -> bool {
        let shown = self.side(side);
        shown.price > 0 && shown.size > 0 && self.admits(side)
    }
}

/// The status of a T S: H for halted, T for trading.
pub fn status_of(message: &[u8]) -> u8 {
    message[31]
}

/// The four bytes of the maker in a Q U.
pub fn maker_of(message: &[u8]) -> &[u8] {
    &message[56..60]
}

/// An item of an odd part.
#[derive(Clone, Copy, Debug)]
pub struct Item {
    pub side: Side,
    pub price: u64,
    pub shares: u32,
}

/// The odd part of a Q K, Q M or Q T.
pub struct OddPart {
    pub clear: u8,
    pub bids: u8,
    pub offers: u8,
    /// The bids, then the offers.
    pub items: Vec<Item>,
}

impl OddPart {
    /// The odd part of a whole message; none if the type has none, or if the message is only the
    /// round part of a Q K.
    pub fn of(message: &[u8]) -> Option<OddPart> {
        let (clear, bids, offers, items) = match Kind::of(message)? {
            Kind::RoundLot if message.len() >= 60 => (56, 57, 58, 60),
            Kind::OddLot | Kind::FinraOddLot if message.len() >= 36 => (31, 32, 33, 36),
            _ => return None,
        };
        let bid_count = usize::from(message[bids]);
        let items = message[items..]
            .chunks(12)
            .enumerate()
            .map(|(i, item)| Item {
                side: if i < bid_count {
                    Side::Bid
                } else {
                    Side::Offer
                },
                price: number(&item[..8]),
                shares: number(&item[8..]) as u32,
            });
        Some(OddPart {
            clear: message[clear],
            bids: message[bids],
            offers: message[offers],
            items: items.collect(),
        })
    }

    /// Whether the clear mark empties a side.
    pub fn clears(&self, side: Side) -> bool {
        match self.clear {
            b'B' => side == Side::Bid,
            b'S' => side == Side::Offer,
            b'X' => true,
            _ => false,
        }
    }
}

/// "A to Z first, then printable bytes 33 to 126, then spaces to the end", eleven bytes.
pub fn is_symbol(bytes: &[u8]) -> bool {
    let text = without_trailing_spaces(bytes);
    bytes.len() == SYMBOL_LEN
        && matches!(text.first(), Some(b'A'..=b'Z'))
        && text.iter().all(|byte| (33..=126).contains(byte))
}

/// "A to Z, at least one, then spaces", four bytes.
pub fn is_maker(bytes: &[u8]) -> bool {
    let text = without_trailing_spaces(bytes);
    bytes.len() == 4 && !text.is_empty() && text.iter().all(u8::is_ascii_uppercase)
}

fn without_trailing_spaces(mut bytes: &[u8]) -> &[u8] {
    while let [front @ .., b' '] = bytes {
        bytes = front;
    }
    bytes
}
