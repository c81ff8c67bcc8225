//! Damaging the memory of a book.

use std::ops::Range;

use second::generate::Random;

use super::layout::{
    in_page, letter_keys, line, moved, page, slot, CELLS, CELL_LEN, CONTENTS, COUNT, ENTRIES,
    HINTS, KEYS, KEY_LEN, LEVELS, LEVEL_LEN, LINES, N, OPENING_LEN, PAGE_LEN, PRIMARY, SLOTS,
    SLOT_LEN, STATUS, SYMBOL,
};
use super::reading::own_keys;

/// Damages a book: its opening, its length, its lines, its symbols, its pages, their entries, times,
/// statuses or keys alone, its hints, or all of it.
pub fn damage(random: &mut Random, memory: &mut Vec<u8>) {
    let pages = (memory.len() - OPENING_LEN) / PAGE_LEN;
    let at = random.below(pages);
    match random.below(19) {
        0 => {
            let (at, any) = (random.below(line(0).start), random.byte());
            memory[at] = random.usually(50, &[0, 1, 2, 64, 65, 255], &[any]);
        }
        1 => {
            let lengths = [
                0, 1, 8, 15, 846, 847, 848, 975, 976, 977, 7698, 7699, 7700, 14422,
            ];
            memory.resize(random.pick(&lengths), 0x51);
        }
        2 => {
            let len = random.below(2 * PAGE_LEN);
            *memory = random.bytes(len);
        }
        3 => {
            scatter(random, &mut memory[line(0).start..line(LINES - 1).end]);
            // Some lines at the last number and the last count.
            for at in 0..LINES {
                if random.percent(30) {
                    memory[moved(at)].fill(0xFF);
                }
            }
        }
        4 => memory[COUNT] = memory[N],
        5 => {
            let symbol = memory[in_page(at, SYMBOL)].to_vec();
            memory[in_page(random.below(pages), SYMBOL)].copy_from_slice(&symbol);
            memory[page(at).start + random.below(PRIMARY + 1)] = random.byte();
        }
        6 => scatter(random, &mut memory[OPENING_LEN..]),
        7 | 8 => any_contents(random, &mut memory[page(at)]),
        9 => {
            let wrong = random.pick(&Wrong::ALL);
            overwrite(random, wrong, memory);
        }
        10 => retime(random, &mut memory[page(at)]),
        11 | 12 => {
            for page in memory[OPENING_LEN..].chunks_exact_mut(PAGE_LEN) {
                let any = random.byte();
                page[PRIMARY] = random.usually(50, &[page[PRIMARY]], &[b'N', b'D', any]);
                page[STATUS] = random.usually(50, b"H", &[0, b'T', b'h', any]);
            }
        }
        13 => {
            for hint in &mut memory[in_page(0, HINTS)] {
                let (page, any) = (random.below(pages) as u8, random.byte());
                *hint = random.usually(70, &[page], &[any]);
            }
        }
        14 => shuffle(random, &mut memory[page(at)]),
        15 | 16 => crowd(random, &mut memory[page(at)]),
        _ => {
            for page in memory[OPENING_LEN..].chunks_exact_mut(PAGE_LEN) {
                damage_keys(random, page);
            }
        }
    }
}

/// Any bytes behind the head of a page, with many quotes that count.
pub fn any_contents(random: &mut Random, page: &mut [u8]) {
    let bytes = random.bytes(CONTENTS.len());
    page[CONTENTS].copy_from_slice(&bytes);
    admit(random, page);
    give_keys(random, page);
}

/// Gives most sides of a page their own keys.
pub fn give_keys(random: &mut Random, page: &mut [u8]) {
    let most = random.pick(&[100, 95, 80]);
    for (at, key) in own_keys(page) {
        if random.percent(most) {
            page[at].copy_from_slice(&key);
        }
    }
}

/// Damages the keys of a page: all of them, those of some letters, or single ones.
pub fn damage_keys(random: &mut Random, page: &mut [u8]) {
    match random.below(8) {
        0 => page[KEYS].fill(0),
        1 => page[KEYS].fill(0xFF),
        2 => {
            let any = random.bytes(KEYS.len());
            page[KEYS].copy_from_slice(&any);
        }
        3 | 4 => {
            for _ in 0..1 + random.below(10) {
                let (from, to) = (random.below(26), random.below(26));
                for (from, to) in letter_keys(from).into_iter().zip(letter_keys(to)) {
                    page.copy_within(from, to.start);
                }
            }
        }
        5 => {
            // One row over another: bids and offers, quotes and odd lots.
            let (from, to) = (random.below(4), random.below(4));
            let row = KEYS.len() / 4;
            let start = KEYS.start + row * from;
            page.copy_within(start..start + row, KEYS.start + row * to);
        }
        _ => {
            for _ in 0..1 + random.below(20) {
                let at = KEYS.start + KEY_LEN * random.below(KEYS.len() / KEY_LEN);
                let key = &mut page[at..at + KEY_LEN];
                let stands = u32::from_le_bytes([key[0], key[1], key[2], key[3]]);
                let beside = [stands.wrapping_add(1), stands.wrapping_sub(1)];
                let others = [stands.wrapping_neg(), random.number() as u32, 0, u32::MAX];
                let new = random.usually(50, &beside, &others);
                key.copy_from_slice(&new.to_le_bytes());
            }
        }
    }
}

/// Prices, sizes and times of which many are equal: few of each, among them those that a key can just
/// and can't tell apart, and sizes of 0.
struct Pool {
    prices: Vec<u64>,
    sizes: Vec<u32>,
    times: Vec<u64>,
}

impl Pool {
    const TEN: u64 = 10_000_000;
    const FULL: u64 = u32::MAX as u64;

    fn draw(random: &mut Random) -> Pool {
        let (ten, full, any) = (Pool::TEN, Pool::FULL, random.number());
        let prices: &[u64] = match random.below(7) {
            0 => &[ten],
            1 => &[ten, ten + 1, ten - 1],
            2 => &[full - 1, full, full + 1],
            3 => &[full, full + 1, 2 * full, u64::MAX - 1, u64::MAX],
            4 => &[0, 1, 2, full, u64::MAX],
            5 => &[ten, ten + 10_000, full, u64::MAX, any],
            _ => &[ten, ten + 10_000, ten + 20_000, ten + 30_000, ten + 40_000],
        };
        let sizes: &[u32] = match random.below(4) {
            0 => &[1],
            1 => &[0, 1, 1, 2],
            2 => &[0, 0, 7],
            _ => &[1, 3, 9, u32::MAX, any as u32],
        };
        let times: &[u64] = match random.below(3) {
            0 => &[7],
            1 => &[7, 8, 9],
            _ => &[0, 7, u64::MAX, any],
        };
        Pool {
            prices: prices.to_vec(),
            sizes: sizes.to_vec(),
            times: times.to_vec(),
        }
    }

    /// The bytes of a side of a quote, or of a level.
    fn shown(&self, random: &mut Random, price: u64) -> Vec<u8> {
        let (size, time) = (random.pick(&self.sizes), random.pick(&self.times));
        [
            &price.to_le_bytes()[..],
            &size.to_le_bytes(),
            &time.to_le_bytes(),
        ]
        .concat()
    }

    fn quote(&self, random: &mut Random, condition: u8, page: &mut [u8], at: usize) {
        page[at] = condition;
        for side in [at + 1, at + 21] {
            let price = random.pick(&self.prices);
            page[side..side + 20].copy_from_slice(&self.shown(random, price));
        }
    }
}

/// A page on which nearly all letters and makers quote, D and S in their own slots too, with many equal
/// prices, sizes and times; most sides have their own keys.
pub fn crowd(random: &mut Random, page: &mut [u8]) {
    let quotes = Pool::draw(random);
    let levels = Pool::draw(random);
    page[STATUS] = random.usually(95, b"T", b"H");
    let of_letters = random.pick(&[100, 90, 50, 10]);
    for letter in 0..26 {
        if !random.percent(of_letters) {
            page[slot(letter)].fill(0);
            continue;
        }
        let at = slot(letter).start;
        let condition = random.usually(85, b"RRRABHOWEF", b"CLNU\0");
        quotes.quote(random, condition, page, at);
        for side in 0..2 {
            let mut prices: Vec<u64> = (0..4).map(|_| random.pick(&levels.prices)).collect();
            // In most slots they rank as levels do, the best first.
            if random.percent(80) {
                prices.sort_unstable_by_key(|price| if side == 0 { !price } else { *price });
                prices.dedup();
            }
            prices.resize(4, 0);
            for (k, price) in prices.into_iter().enumerate() {
                let start = at + LEVELS + LEVEL_LEN * (4 * side + k);
                page[start..start + LEVEL_LEN].copy_from_slice(&levels.shown(random, price));
            }
        }
    }
    // The slots of D and S ahead of all others: neither's quote counts there, nor do levels of S.
    if random.percent(30) {
        for letter in [b'D', b'S'].map(|letter| usize::from(letter - b'A')) {
            let at = slot(letter).start;
            page[at] = b'R';
            for (side, price) in [u64::MAX, 1].into_iter().enumerate() {
                let outermost = quotes.shown(random, price);
                let (quote, first) = (at + 1 + 20 * side, at + LEVELS + 80 * side);
                page[quote..quote + 20].copy_from_slice(&outermost);
                page[first..first + 20].copy_from_slice(&outermost);
            }
        }
    }
    let of_makers = random.pick(&[0, 20, 90]);
    for at in CELLS.step_by(CELL_LEN) {
        let condition = random.usually(of_makers, b"RRL", b"\0");
        let name = random.usually(50, &[*b"MM  ", *b"AB  ", *b"ZZZZ"], &[*b"B   ", *b"CD  "]);
        page[at..at + 4].copy_from_slice(&name);
        quotes.quote(random, condition, page, at + 4);
    }
    give_keys(random, page);
}

/// Gives each side of each quote of a page any time, and half of the letters' quotes condition 0 or
/// another; most have their own keys then.
pub fn retime(random: &mut Random, page: &mut [u8]) {
    let slots = SLOTS.step_by(SLOT_LEN);
    for quote in slots
        .clone()
        .chain((CELLS.start + 4..CELLS.end).step_by(CELL_LEN))
    {
        for side in [quote + 1, quote + 21] {
            let time = random.bytes(8);
            page[side + 12..side + 20].copy_from_slice(&time);
        }
    }
    for quote in slots {
        let any = random.byte();
        page[quote] = random.usually(50, &[page[quote]], &[0, any]);
    }
    give_keys(random, page);
}

/// Entries that are not those of a page's quotes.
#[derive(Clone, Copy, PartialEq, Eq, PartialOrd, Ord, Debug)]
pub enum Wrong {
    /// Any bytes.
    Any,
    /// Entries at 99.00 and 1.00, far ahead of most quotes, or at the outermost prices, ahead of all.
    Ahead,
    /// Six times none.
    Nothing,
}

impl Wrong {
    pub const ALL: [Wrong; 3] = [Wrong::Any, Wrong::Ahead, Wrong::Nothing];

    fn draw(self, random: &mut Random) -> Vec<u8> {
        match self {
            Wrong::Any => random.bytes(ENTRIES.len()),
            Wrong::Ahead => {
                let letter = b'A' + random.below(26) as u8;
                let outside = [(99_000_000, 1_000_000, 9), (u64::MAX, 1, u32::MAX)];
                let (bid, offer, size) = random.pick(&outside);
                let national = [letter, b'R', b' ', b' '];
                let odd = [letter, b' ', b' ', b' '];
                let names = [national, *b"MAKE", odd];
                names
                    .iter()
                    .flat_map(|&name| [entry(name, bid, size), entry(name, offer, size)].concat())
                    .collect()
            }
            Wrong::Nothing => entry(*b"    ", 0, 0).repeat(6),
        }
    }
}

/// The 16 bytes of an entry.
pub fn entry(name: [u8; 4], price: u64, size: u32) -> Vec<u8> {
    [&name[..], &price.to_be_bytes(), &size.to_be_bytes()].concat()
}

/// Overwrites the entries of most pages of a book, and no other byte.
pub fn overwrite(random: &mut Random, wrong: Wrong, memory: &mut [u8]) {
    for at in 0..(memory.len() - OPENING_LEN) / PAGE_LEN {
        if random.percent(80) {
            memory[in_page(at, ENTRIES)].copy_from_slice(&wrong.draw(random));
        }
    }
}

/// Writes up to 300 bytes anywhere.
pub fn scatter(random: &mut Random, memory: &mut [u8]) {
    for _ in 0..1 + random.below(300) {
        let (at, any) = (random.below(memory.len()), random.byte());
        memory[at] = random.usually(30, b"ADLNRS\x00\x01", &[any]);
    }
}

/// Gives most quotes of a page a condition under which they count, and halts some pages.
fn admit(random: &mut Random, page: &mut [u8]) {
    page[STATUS] = random.usually(80, &[page[STATUS]], b"H");
    for slot in page[SLOTS].chunks_exact_mut(SLOT_LEN) {
        slot[0] = random.usually(50, b"ABEFHORWL", &[slot[0]]);
    }
    for cell in page[CELLS].chunks_exact_mut(CELL_LEN) {
        cell[4] = random.usually(80, b"RRL", &[cell[4]]);
    }
}

/// Copies levels, slots and cells of a page over others of their kind; most have their own keys then.
pub fn shuffle(random: &mut Random, page: &mut [u8]) {
    for _ in 0..40 {
        let (Range { start, .. }, len, count) = match random.below(3) {
            0 => {
                let slot = SLOTS.start + SLOT_LEN * random.below(26);
                (slot + LEVELS..slot + SLOT_LEN, LEVEL_LEN, 8)
            }
            1 => (SLOTS, SLOT_LEN, 26),
            _ => (CELLS, CELL_LEN, 16),
        };
        let from = start + len * random.below(count);
        let to = start + len * random.below(count);
        page.copy_within(from..from + len, to);
    }
    give_keys(random, page);
}
