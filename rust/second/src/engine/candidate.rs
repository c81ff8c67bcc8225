//! What stands in a ranking, and the order of "Best entries".

use super::mistake;

/// The side of a quote, level or entry. Every rule about sides is written once, with this as its
/// parameter.
#[derive(Clone, Copy, PartialEq, Eq, Debug)]
pub enum Side {
    Bid,
    Offer,
}

impl Side {
    pub const BOTH: [Side; 2] = [Side::Bid, Side::Offer];

    /// The rank of a price, the larger being the better and 0 being none: the price itself for
    /// bids, 2^64 less the price for offers.
    #[inline]
    pub fn rank(self, price: u64) -> u64 {
        match self {
            Side::Bid => price,
            Side::Offer => price.wrapping_neg(),
        }
    }

    /// The price of a rank.
    #[inline]
    pub fn price(self, rank: u64) -> u64 {
        match self {
            Side::Bid => rank,
            Side::Offer => rank.wrapping_neg(),
        }
    }
}

/// One side of a letter's or maker's quote, or one odd-lot level.
///
/// The name is the four bytes that a publication shows, first byte highest. Within one ranking two
/// candidates of equal price, size and time differ in letter or maker, so comparing the names
/// settles the last tie.
#[derive(Clone, Copy, PartialEq, Eq, Debug)]
pub struct Candidate {
    /// The price as [`Side::rank`] gives it.
    pub rank: u64,
    /// The timestamp of the message; of a resent side of a quote, the time that the side had.
    pub time: u64,
    /// Round lots, or shares of a level.
    pub size: u32,
    pub name: u32,
}

impl Candidate {
    /// No candidate: whatever counts has a price above zero and beats it.
    pub const NONE: Candidate = Candidate {
        rank: 0,
        time: u64::MAX,
        size: 0,
        name: u32::MAX,
    };

    #[inline]
    pub fn stands(&self) -> bool {
        self.rank > 0
    }

    /// The letter of a national or odd candidate.
    #[inline]
    pub fn letter(&self) -> u8 {
        self.name.to_be_bytes()[0]
    }

    /// Whether this side of a new quote keeps the time of the one that stands: "the same price and a
    /// size no larger".
    #[inline]
    pub fn is_resent<const M: u8>(&self, standing: &Candidate) -> bool {
        let no_larger = match M {
            mistake::RESENT_TAKES_TIME => false,
            mistake::LARGER_KEEPS_TIME => true,
            mistake::SAME_SIZE_ONLY => self.size == standing.size,
            mistake::INDICATION_KEEPS_TIME => self.size <= standing.size || standing.size == 0,
            mistake::CONDITION_ENDS_RUN => self.size <= standing.size && self.name == standing.name,
            _ => self.size <= standing.size,
        };
        self.rank == standing.rank && no_larger
    }

    /// The better price, then larger size, earlier time, lower name: whether this is the better one,
    /// and which of the four decided.
    #[inline]
    pub fn compare<const M: u8>(&self, other: &Candidate) -> (bool, Reason) {
        if self.rank != other.rank {
            return (self.rank > other.rank, Reason::Price);
        }
        if M == mistake::TIME_BEFORE_SIZE && self.time != other.time {
            return (self.time < other.time, Reason::Time);
        }
        if self.size != other.size {
            return (self.size > other.size, Reason::Size);
        }
        if self.time != other.time {
            return (self.time < other.time, Reason::Time);
        }
        if M == mistake::TIE_TO_HIGHER_NAME && other.stands() {
            return (self.name > other.name, Reason::Name);
        }
        (self.name < other.name, Reason::Name)
    }

    #[inline]
    pub fn beats<const M: u8>(&self, other: &Candidate) -> bool {
        self.compare::<M>(other).0
    }
}

/// Which of the four decided between two candidates.
#[derive(Clone, Copy, PartialEq, Eq, PartialOrd, Ord, Debug)]
pub enum Reason {
    Price,
    Size,
    Time,
    Name,
}

impl Reason {
    /// The third byte of a national entry.
    #[inline]
    pub fn byte<const M: u8>(self) -> u8 {
        match self {
            Reason::Price => b'P',
            Reason::Size => b'S',
            Reason::Time if M == mistake::TIME_SHOWN_AS_SIZE => b'S',
            Reason::Time => b'T',
            Reason::Name => b'L',
        }
    }
}

/// The four bytes of a national name: letter, condition, two spaces. The third is another one if there
/// is a second best.
#[inline]
pub fn national_name(letter: u8, condition: u8) -> u32 {
    u32::from_be_bytes([letter, condition, b' ', b' '])
}

/// The four bytes of an odd name: letter, three spaces.
#[inline]
pub fn odd_name(letter: u8) -> u32 {
    u32::from_be_bytes([letter, b' ', b' ', b' '])
}

/// A published entry: its 16 bytes as one number, first byte highest.
#[derive(Clone, Copy, PartialEq, Eq, Debug)]
pub struct Entry(u128);

impl Entry {
    /// None is four spaces and zeros.
    pub const NONE: Entry = Entry(0x2020_2020 << 96);

    /// Name, price, size.
    #[inline]
    pub fn of(candidate: &Candidate, side: Side) -> Entry {
        if !candidate.stands() {
            return Entry::NONE;
        }
        let price = side.price(candidate.rank);
        Entry(
            u128::from(candidate.name) << 96 | u128::from(price) << 32 | u128::from(candidate.size),
        )
    }

    /// The entry with this byte in the third place of its name.
    #[inline]
    pub fn with_reason(self, byte: u8) -> Entry {
        const PLACE: u32 = 104;
        Entry(self.0 & !(0xff << PLACE) | u128::from(byte) << PLACE)
    }

    #[inline]
    pub fn bytes(self) -> [u8; 16] {
        self.0.to_be_bytes()
    }
}
