//! Messages as a person reads them.

use quotebook::lent::SYMBOL_LEN;
use quotebook::Price;

/// A symbol's eleven bytes.
pub type Symbol = [u8; SYMBOL_LEN];

/// A symbol without its trailing spaces.
pub fn symbol_text(symbol: &[u8]) -> String {
    symbol.trim_ascii_end().escape_ascii().to_string()
}

/// A symbol from a command line; none if it is too long.
pub fn symbol_of_text(text: &str) -> Option<Symbol> {
    let mut symbol = [b' '; SYMBOL_LEN];
    symbol
        .get_mut(..text.len())?
        .copy_from_slice(text.as_bytes());
    Some(symbol)
}

/// The type of a message.
#[derive(Clone, Copy, PartialEq, Eq, Debug)]
pub enum Kind {
    Inquiry,
    Integrity,
    Test,
    FinraClose,
    FinraOpen,
    RoundLot,
    OddLot,
    FinraOddLot,
    Maker,
    Status,
    Unknown,
}

impl Kind {
    pub fn of(message: &[u8]) -> Kind {
        match message.get(..2) {
            Some(b"CI") => Kind::Inquiry,
            Some(b"CT") => Kind::Integrity,
            Some(b"C5") => Kind::Test,
            Some(b"CC") => Kind::FinraClose,
            Some(b"CO") => Kind::FinraOpen,
            Some(b"QK") => Kind::RoundLot,
            Some(b"QM") => Kind::OddLot,
            Some(b"QT") => Kind::FinraOddLot,
            Some(b"QU") => Kind::Maker,
            Some(b"TS") => Kind::Status,
            _ => Kind::Unknown,
        }
    }

    pub fn name(self) -> &'static str {
        match self {
            Kind::Inquiry => "inquiry",
            Kind::Integrity => "line integrity",
            Kind::Test => "test",
            Kind::FinraClose => "FINRA Close",
            Kind::FinraOpen => "FINRA Open",
            Kind::RoundLot => "quote",
            Kind::OddLot => "odd lots",
            Kind::FinraOddLot => "FINRA odd lots",
            Kind::Maker => "maker",
            Kind::Status => "status",
            Kind::Unknown => "unknown",
        }
    }

    fn has_symbol(self) -> bool {
        matches!(
            self,
            Kind::RoundLot | Kind::OddLot | Kind::FinraOddLot | Kind::Maker | Kind::Status
        )
    }
}

/// The symbol that a message names, if its type has one.
pub fn symbol_of(message: &[u8]) -> Option<&[u8]> {
    let symbol = message.get(20..20 + SYMBOL_LEN);
    symbol.filter(|_| Kind::of(message).has_symbol())
}

/// A big-endian number; 0 of bytes that are not there.
pub fn number(bytes: &[u8], at: usize, len: usize) -> u64 {
    let bytes = bytes.get(at..at + len).unwrap_or_default();
    bytes
        .iter()
        .fold(0, |number, &byte| number << 8 | u64::from(byte))
}

/// The timestamp of a message.
pub fn time_of(message: &[u8]) -> u64 {
    number(message, 4, 8)
}

/// A price with its size, `-` for nothing.
pub fn shown(price: u64, size: u64) -> String {
    match (price, size) {
        (0, 0) => "-".to_string(),
        _ => format!("{} x {size}", Price(price)),
    }
}

/// An item of an odd part.
#[derive(Clone, Copy, PartialEq, Eq, Debug)]
pub struct Item {
    /// 0 for a bid, 1 for an offer.
    pub side: usize,
    pub price: u64,
    pub shares: u32,
}

/// The odd part of a whole message.
#[derive(Clone, PartialEq, Eq, Debug)]
pub struct OddPart {
    pub clear: u8,
    pub items: Vec<Item>,
}

impl OddPart {
    pub fn of(message: &[u8]) -> Option<OddPart> {
        let (clear, items) = match Kind::of(message) {
            Kind::RoundLot => (56, 60),
            Kind::OddLot | Kind::FinraOddLot => (31, 36),
            _ => return None,
        };
        let bids = usize::from(*message.get(clear + 1)?);
        let (cells, _) = message.get(items..)?.as_chunks::<12>();
        let items = cells.iter().enumerate().map(|(i, cell)| Item {
            side: usize::from(i >= bids),
            price: number(cell, 0, 8),
            shares: number(cell, 8, 4) as u32,
        });
        Some(OddPart {
            clear: message[clear],
            items: items.collect(),
        })
    }

    /// Whether the clear mark empties a side.
    pub fn clears(&self, side: usize) -> bool {
        matches!((self.clear, side), (b'X', _) | (b'B', 0) | (b'S', 1))
    }

    fn text(&self) -> Option<String> {
        let mut parts = Vec::new();
        match self.clear {
            b' ' => {}
            b'B' => parts.push("clear bids".to_string()),
            b'S' => parts.push("clear offers".to_string()),
            b'X' => parts.push("clear both".to_string()),
            other => parts.push(format!("clear mark {}", other.escape_ascii())),
        }
        for (side, name) in [(0, "odd bid"), (1, "odd offer")] {
            for item in self.items.iter().filter(|item| item.side == side) {
                parts.push(match item.shares {
                    0 => format!("{name} {} gone", Price(item.price)),
                    shares => format!("{name} {} x {shares}", Price(item.price)),
                });
            }
        }
        (!parts.is_empty()).then(|| parts.join(", "))
    }
}

/// What a message says behind its type and symbol.
pub fn detail(message: &[u8]) -> String {
    let kind = Kind::of(message);
    let mut parts = Vec::new();
    if matches!(kind, Kind::RoundLot | Kind::Maker) && message.len() >= 56 {
        if kind == Kind::Maker {
            let maker = message.get(56..60).unwrap_or_default().trim_ascii_end();
            parts.push(maker.escape_ascii().to_string());
        }
        parts.push(format!(
            "{} {} / {}",
            message[31].escape_ascii(),
            shown(number(message, 32, 8), number(message, 40, 4)),
            shown(number(message, 44, 8), number(message, 52, 4))
        ));
    }
    if let Some(status) = message.get(31).filter(|_| kind == Kind::Status) {
        parts.push(match status {
            b'H' => "halted".to_string(),
            b'T' => "trading".to_string(),
            other => format!("status {}", other.escape_ascii()),
        });
    }
    if kind == Kind::Unknown {
        let two = message.get(..2).unwrap_or_default();
        parts.push(format!("category and type {}", two.escape_ascii()));
    }
    parts.extend(OddPart::of(message).and_then(|part| part.text()));
    parts.join("; ")
}

/// The messages of a block that was taken: where each begins and ends.
pub fn parts(block: &[u8]) -> Vec<(usize, usize)> {
    let count = usize::from(block.get(1).copied().unwrap_or(0));
    let mut bounds: Vec<usize> = (0..count)
        .map(|i| number(block, 10 + 2 * i, 2) as usize)
        .collect();
    bounds.push(block.len());
    let pairs = bounds.windows(2).map(|bound| (bound[0], bound[1]));
    pairs
        .filter(|&(start, end)| start <= end && end <= block.len())
        .collect()
}

#[cfg(test)]
mod tests {
    use super::*;
    use second::build::{self, Odd, Round};

    #[test]
    fn a_message_in_words() {
        let round = Round::regular(b'N', 7, "ZT", (10_000_000, 3), (0, 0));
        let odd = Odd {
            clear: b'S',
            bids: vec![(10_005_000, 15)],
            offers: vec![(10_010_000, 0)],
        };
        let message = build::round_lot(&round, &odd);
        assert_eq!(
            detail(&message),
            "R 10.00 x 3 / -; clear offers, odd bid 10.005 x 15, odd offer 10.01 gone"
        );
        assert_eq!(symbol_of(&message).map(symbol_text).as_deref(), Some("ZT"));
        let maker = build::maker_quote(&round, build::maker("ETMM"));
        assert_eq!(detail(&maker), "ETMM; R 10.00 x 3 / -");
        let status = build::trading_status(b'N', 7, build::symbol("ZT"), b'H');
        assert_eq!(detail(&status), "halted");
        assert_eq!(detail(b"XX"), "category and type XX");
        let block = build::block(7, &[message.clone(), maker]);
        let parts = parts(&block);
        assert_eq!(&block[parts[0].0..parts[0].1], &message[..]);
        assert_eq!(parts.len(), 2);
    }
}
