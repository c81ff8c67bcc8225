//! What stands on a symbol's page: quotes, makers and levels (docs/LAYOUT.md). A side of a letter's
//! quote or levels whose key is not its own has none.

use quotebook::lent::SYMBOL_LEN;

/// Where the opening tells n and the place of the first page.
const N: usize = 8;
const FIRST_PAGE: usize = 11;

/// Where a page has what.
const LOT: usize = 11;
const PRIMARY: usize = 12;
const SLOTS: usize = 360;
const SLOT_LEN: usize = 201;
const LETTERS: usize = 26;
const LEVELS: usize = 41;
const SIDE_LEN: usize = 80;
const CELLS: usize = 5586;
const CELL_LEN: usize = 45;
const MAKERS: usize = 16;
const STATUS: usize = 6306;
/// Four rows: the keys of the letters' bids, offers, first odd bids and first odd offers.
const KEYS: usize = 6307;
const KEY_LEN: usize = 4;
const KEY_ROW: usize = 104;
const PAGE_LEN: usize = 6723;

/// Bid is 0, offer is 1.
pub const SIDE_NAMES: [&str; 2] = ["bid", "offer"];

/// Price, size and the time by which it ranks.
#[derive(Clone, Copy, PartialEq, Eq, Debug)]
pub struct Shown {
    pub price: u64,
    /// Round lots, or shares of a level.
    pub size: u32,
    pub time: u64,
}

/// A letter's or maker's quote. Condition 0 is none since Start of Day.
#[derive(Clone, Copy, PartialEq, Eq, Debug)]
pub struct Quote {
    pub condition: u8,
    pub sides: [Shown; 2],
}

/// A letter's quote and its levels.
#[derive(Clone, PartialEq, Eq, Debug)]
pub struct Slot {
    pub quote: Quote,
    pub levels: [Vec<Shown>; 2],
}

#[derive(Clone, Copy, PartialEq, Eq, Debug)]
pub struct Maker {
    pub name: [u8; 4],
    pub quote: Quote,
}

/// A symbol's page.
#[derive(Clone, PartialEq, Eq, Debug)]
pub struct Page {
    pub round_lot: u8,
    pub primary: u8,
    pub is_halted: bool,
    /// By the places of A to Z.
    pub slots: Vec<Slot>,
    pub makers: Vec<Maker>,
}

/// Prices, sizes and times in slots and cells have their lowest byte first.
fn little(bytes: &[u8]) -> u64 {
    let lowest_last = bytes.iter().rev();
    lowest_last.fold(0, |number, &byte| number << 8 | u64::from(byte))
}

impl Shown {
    const NONE: Shown = Shown {
        price: 0,
        size: 0,
        time: 0,
    };

    fn read(bytes: &[u8]) -> Shown {
        Shown {
            price: little(&bytes[..8]),
            size: little(&bytes[8..12]) as u32,
            time: little(&bytes[12..20]),
        }
    }

    /// Of bids the price, at most 2^32 - 1, of offers 2^32 less that; 0 without a price or a size.
    fn key(&self, side: usize) -> u64 {
        let price = self.price.min(u64::from(u32::MAX));
        match side {
            _ if price == 0 || self.size == 0 => 0,
            0 => price,
            _ => (1 << 32) - price,
        }
    }
}

impl Quote {
    fn read(bytes: &[u8]) -> Quote {
        Quote {
            condition: bytes[0],
            sides: [Shown::read(&bytes[1..21]), Shown::read(&bytes[21..41])],
        }
    }

    /// 0 if the condition does not admit the side.
    fn key(&self, side: usize) -> u64 {
        if self.admits(side) {
            self.sides[side].key(side)
        } else {
            0
        }
    }

    /// A, B, H, O, R, W admit both sides, E the offer, F the bid.
    pub fn admits(&self, side: usize) -> bool {
        match self.condition {
            b'A' | b'B' | b'H' | b'O' | b'R' | b'W' => true,
            b'E' => side == 1,
            b'F' => side == 0,
            _ => false,
        }
    }
}

/// The levels before the first cell that is empty.
fn levels(bytes: &[u8]) -> Vec<Shown> {
    let cells = bytes.chunks_exact(20).map(Shown::read);
    cells
        .take_while(|level| level.price > 0 && level.size > 0)
        .collect()
}

impl Slot {
    /// What a letter's slot and its keys say.
    fn read(page: &[u8], place: usize) -> Slot {
        let bytes = &page[SLOTS + SLOT_LEN * place..][..SLOT_LEN];
        let mut slot = Slot {
            quote: Quote::read(bytes),
            levels: [
                levels(&bytes[LEVELS..LEVELS + SIDE_LEN]),
                levels(&bytes[LEVELS + SIDE_LEN..]),
            ],
        };
        let key = |row: usize| little(&page[KEYS + KEY_ROW * row + KEY_LEN * place..][..KEY_LEN]);
        for side in [0, 1] {
            let first = slot.levels[side].first().map_or(0, |level| level.key(side));
            if key(2 + side) != first {
                slot.levels[side].clear();
            }
            if key(side) != slot.quote.key(side) {
                slot.quote.sides[side] = Shown::NONE;
            }
        }
        slot
    }
}

impl Page {
    /// The page of the symbol in this place of a book.
    pub fn read(book: &[u8], place: usize) -> Option<Page> {
        let first = book.get(FIRST_PAGE..FIRST_PAGE + 4)?;
        let first = u32::from_be_bytes(first.try_into().ok()?) as usize;
        let start = first + PAGE_LEN * place;
        if place >= usize::from(*book.get(N)?) {
            return None;
        }
        let page = book.get(start..start + PAGE_LEN)?;
        let slots = (0..LETTERS).map(|place| Slot::read(page, place));
        let cells = page[CELLS..].chunks_exact(CELL_LEN).take(MAKERS);
        let makers = cells.filter(|cell| matches!(cell[4], b'L' | b'R'));
        let makers = makers.map(|cell| Maker {
            name: [cell[0], cell[1], cell[2], cell[3]],
            quote: Quote::read(&cell[4..]),
        });
        Some(Page {
            round_lot: page[LOT],
            primary: page[PRIMARY],
            is_halted: page[STATUS] == b'H',
            slots: slots.collect(),
            makers: makers.collect(),
        })
    }

    /// The symbol in this place.
    pub fn symbol(book: &[u8], place: usize) -> Option<&[u8]> {
        let first = book.get(FIRST_PAGE..FIRST_PAGE + 4)?;
        let first = u32::from_be_bytes(first.try_into().ok()?) as usize;
        book.get(first + PAGE_LEN * place..)?.get(..SYMBOL_LEN)
    }
}
