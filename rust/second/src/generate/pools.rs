//! What a list is about, and the few values that it draws from.

use super::random::Random;
use crate::build;
use crate::terms::SYMBOL_LEN;

/// What a list is mostly about.
#[derive(Clone, Copy, PartialEq, Eq, Debug)]
pub enum Theme {
    /// All calls and messages.
    Mixed,
    /// More than sixteen makers, FINRA Close and Open.
    Makers,
    /// Odd parts, their clears, faults and fifth levels.
    Levels,
    /// Sequence numbers, days, control messages and damaged blocks.
    Lines,
    /// Calls of the operator.
    Operator,
    /// A book of 64 symbols.
    Wide,
    /// Lines of most letters, so that a snapshot shows many of them.
    Letters,
}

impl Theme {
    pub fn draw(random: &mut Random) -> Theme {
        let themes = [
            Theme::Mixed,
            Theme::Makers,
            Theme::Levels,
            Theme::Lines,
            Theme::Operator,
            Theme::Wide,
            Theme::Letters,
        ];
        themes[random.weighted(&[29, 19, 25, 13, 8, 2, 4])]
    }

    /// The n of the list's book.
    pub fn draw_n(self, random: &mut Random) -> u32 {
        match self {
            Theme::Wide => 64,
            Theme::Letters => 1,
            Theme::Makers | Theme::Levels => random.pick(&[1, 2]),
            Theme::Mixed | Theme::Lines | Theme::Operator => random.pick(&[1, 2, 3, 4]),
        }
    }

    /// Weights of the calls: take, read, add, open, Start, End, make, is protected, convert, snapshot's
    /// length, snapshot, try an order.
    pub fn calls(self) -> [usize; 12] {
        match self {
            Theme::Operator => [36, 12, 20, 16, 6, 7, 3, 10, 8, 3, 6, 10],
            Theme::Lines => [83, 2, 2, 4, 4, 4, 1, 1, 2, 1, 1, 1],
            Theme::Wide => [80, 10, 6, 2, 1, 1, 0, 5, 5, 1, 3, 5],
            Theme::Mixed | Theme::Makers | Theme::Levels => [90, 3, 2, 2, 1, 2, 0, 6, 3, 1, 4, 6],
            Theme::Letters => [90, 1, 0, 1, 1, 1, 0, 2, 1, 4, 16, 4],
        }
    }

    /// Weights of the blocks: quotes, one control message, many short messages, arbitrary bytes.
    pub fn blocks(self) -> [usize; 4] {
        match self {
            Theme::Lines => [61, 30, 3, 6],
            Theme::Makers => [80, 18, 1, 1],
            _ => [87, 10, 1, 2],
        }
    }

    /// Damaged blocks in a hundred.
    pub fn damaged_blocks(self) -> usize {
        match self {
            Theme::Lines => 15,
            _ => 4,
        }
    }

    /// Blocks on lines of D in a hundred.
    pub fn finra_blocks(self) -> usize {
        match self {
            Theme::Makers => 70,
            Theme::Levels => 20,
            _ => 30,
        }
    }

    /// Statuses in a hundred of all messages but control messages.
    pub fn statuses(self) -> usize {
        match self {
            Theme::Makers | Theme::Levels => 3,
            _ => 5,
        }
    }

    /// Q M in a hundred of Q K and Q M, and Q T in a hundred of Q U and Q T.
    pub fn odd_lots(self) -> usize {
        match self {
            Theme::Levels => 50,
            Theme::Makers => 10,
            _ => 25,
        }
    }
}

pub type Symbol = [u8; SYMBOL_LEN];

/// Few symbols, letters, makers, prices, sizes and times, so that equal ones meet often.
pub struct Pools {
    pub symbols: Vec<Symbol>,
    pub letters: Vec<u8>,
    pub makers: Vec<[u8; 4]>,
    pub prices: Vec<u64>,
    pub sizes: Vec<u32>,
    pub times: Vec<u64>,
}

impl Pools {
    /// More symbols than the book has room for, by two.
    pub fn draw(random: &mut Random, theme: Theme, n: u32) -> Pools {
        let makers = match theme {
            Theme::Makers => 17 + random.below(3),
            _ => 2 + random.below(4),
        };
        let mut prices: Vec<u64> = (1000..1007).map(|cents| cents * 10_000).collect();
        prices.truncate(3 + random.below(5));
        let mut sizes = vec![1, 2, 3];
        sizes.truncate(1 + random.below(3));
        let mut times = vec![5, 6, 7];
        times.truncate(1 + random.below(3));
        if random.percent(30) {
            prices.extend([1, u64::MAX]);
            sizes.push(u32::MAX);
            times.extend([0, u64::MAX]);
        }
        Pools {
            symbols: draw_distinct(n as usize + 2, || draw_symbol(random)),
            letters: draw_letters(random, theme),
            makers: draw_distinct(makers, || draw_maker(random)),
            prices,
            sizes,
            times,
        }
    }
}

fn draw_distinct<T: PartialEq>(count: usize, mut draw: impl FnMut() -> T) -> Vec<T> {
    let mut drawn = Vec::new();
    while drawn.len() < count {
        let next = draw();
        if !drawn.contains(&next) {
            drawn.push(next);
        }
    }
    drawn
}

fn draw_symbol(random: &mut Random) -> Symbol {
    let mut symbol = build::symbol("");
    symbol[0] = b'A' + random.below(26) as u8;
    let len = random.pick(&[1, 2, 3, 4, 4, 10, 11]);
    for byte in &mut symbol[1..len] {
        *byte = random.pick(b"AZTaz.!~/0");
    }
    symbol
}

/// Two to four letters, mostly D among them; or twelve to all.
fn draw_letters(random: &mut Random, theme: Theme) -> Vec<u8> {
    let mut letters = match theme {
        Theme::Letters => {
            let count = random.pick(&[12, 13, 14, 15, 18, 24, 24, 24]);
            draw_distinct(count, || random.pick(b"ABCEFGHIJKLMNOPQRTUVWXYZ"))
        }
        _ => {
            let count = 2 + random.below(2);
            draw_distinct(count, || random.pick(b"ABCENPQZ"))
        }
    };
    if random.percent(85) {
        letters.push(b'D');
    }
    letters
}

fn draw_maker(random: &mut Random) -> [u8; 4] {
    let mut maker = build::maker("");
    let len = 1 + random.below(4);
    for byte in &mut maker[..len] {
        *byte = random.pick(b"ADSZ");
    }
    maker
}
