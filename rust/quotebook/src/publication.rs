//! A symbol's publication: its six best entries.

use std::fmt::{self, Display, Formatter};

use crate::lent::PUBLICATION_LEN;
use crate::price::Price;

const ENTRY_LEN: usize = 16;

/// The six best entries of a symbol.
#[derive(Clone, Copy, PartialEq, Eq, Debug, Default)]
pub struct Publication {
    /// The highest bid over all letters.
    pub national_bid: Option<Entry>,
    /// The lowest offer over all letters.
    pub national_offer: Option<Entry>,
    /// The highest bid over FINRA's makers.
    pub finra_bid: Option<Entry>,
    /// The lowest offer over FINRA's makers.
    pub finra_offer: Option<Entry>,
    /// The highest odd lot bid, priced above the national bid.
    pub odd_bid: Option<Entry>,
    /// The lowest odd lot offer, priced below the national offer.
    pub odd_offer: Option<Entry>,
}

impl Publication {
    /// Decodes the 96 bytes that a read fills.
    pub fn from_bytes(bytes: &[u8; PUBLICATION_LEN]) -> Publication {
        let (entries, _) = bytes.as_chunks::<ENTRY_LEN>();
        let entry = |at: usize| Entry::from_bytes(&entries[at]);
        Publication {
            national_bid: entry(0).map(Entry::into_national),
            national_offer: entry(1).map(Entry::into_national),
            finra_bid: entry(2),
            finra_offer: entry(3),
            odd_bid: entry(4),
            odd_offer: entry(5),
        }
    }

    /// The entries with what they are, in the order in which they are published.
    pub fn entries(&self) -> [(&'static str, Option<Entry>); 6] {
        [
            ("national bid", self.national_bid),
            ("national offer", self.national_offer),
            ("FINRA bid", self.finra_bid),
            ("FINRA offer", self.finra_offer),
            ("odd bid", self.odd_bid),
            ("odd offer", self.odd_offer),
        ]
    }
}

/// A line for each entry.
impl Display for Publication {
    fn fmt(&self, f: &mut Formatter) -> fmt::Result {
        for (what, entry) in self.entries() {
            match entry {
                Some(entry) => writeln!(f, "{what:14} {entry}")?,
                None => writeln!(f, "{what:14} none")?,
            }
        }
        Ok(())
    }
}

/// A published entry.
#[derive(Clone, Copy, PartialEq, Eq, Debug)]
pub struct Entry {
    /// The letter, or the maker of a FINRA entry.
    pub name: Name,
    /// The condition of a national entry; no other is published with one.
    pub condition: Option<u8>,
    /// What put a national entry ahead of the second best. None if there is no second best, and for
    /// the other entries.
    pub reason: Option<Reason>,
    /// The price.
    pub price: Price,
    /// Round lots, or shares of an odd lot.
    pub size: u32,
}

impl Entry {
    /// None is four spaces and zeros.
    const NONE: [u8; ENTRY_LEN] = *b"    \0\0\0\0\0\0\0\0\0\0\0\0";

    pub(crate) fn from_bytes(bytes: &[u8; ENTRY_LEN]) -> Option<Entry> {
        if *bytes == Entry::NONE {
            return None;
        }
        let [n0, n1, n2, n3, price @ .., s0, s1, s2, s3] = *bytes;
        Some(Entry {
            name: Name([n0, n1, n2, n3]),
            condition: None,
            reason: None,
            price: Price(u64::from_be_bytes(price)),
            size: u32::from_be_bytes([s0, s1, s2, s3]),
        })
    }

    /// A national name is the letter, the condition, what put it ahead and a space.
    pub(crate) fn into_national(self) -> Entry {
        let Name([letter, condition, reason, _]) = self.name;
        Entry {
            name: Name([letter, b' ', b' ', b' ']),
            condition: Some(condition),
            reason: Reason::from_byte(reason),
            ..self
        }
    }
}

/// Name, condition if there is one, price and size; what put it ahead if that is told.
impl Display for Entry {
    fn fmt(&self, f: &mut Formatter) -> fmt::Result {
        let Entry {
            name, price, size, ..
        } = self;
        write!(f, "{name} ")?;
        if let Some(condition) = self.condition {
            write!(f, "{} ", condition.escape_ascii())?;
        }
        write!(f, "{price} x {size}")?;
        match self.reason {
            Some(reason) => write!(f, ", ahead by {reason}"),
            None => Ok(()),
        }
    }
}

/// What put a national leader ahead of the second best: the first of these in which the two differ.
#[derive(Clone, Copy, PartialEq, Eq, PartialOrd, Ord, Hash, Debug)]
pub enum Reason {
    /// A better price.
    Price,
    /// A larger size at the same price.
    Size,
    /// An earlier time at the same price and size.
    Time,
    /// A lower letter; all else is the same.
    Letter,
}

impl Reason {
    /// The reason that an entry's third byte stands for; a space is none.
    fn from_byte(byte: u8) -> Option<Reason> {
        match byte {
            b'P' => Some(Reason::Price),
            b'S' => Some(Reason::Size),
            b'T' => Some(Reason::Time),
            b'L' => Some(Reason::Letter),
            _ => None,
        }
    }
}

impl Display for Reason {
    fn fmt(&self, f: &mut Formatter) -> fmt::Result {
        f.write_str(match self {
            Reason::Price => "price",
            Reason::Size => "size",
            Reason::Time => "time",
            Reason::Letter => "letter",
        })
    }
}

/// The name of an entry, without the spaces that fill it up to four bytes.
#[derive(Clone, Copy, PartialEq, Eq, PartialOrd, Ord, Hash, Debug)]
pub struct Name([u8; 4]);

impl Name {
    /// The bytes of the name.
    pub fn as_bytes(&self) -> &[u8] {
        self.0.trim_ascii_end()
    }
}

impl PartialEq<str> for Name {
    fn eq(&self, text: &str) -> bool {
        self.as_bytes() == text.as_bytes()
    }
}

impl PartialEq<&str> for Name {
    fn eq(&self, text: &&str) -> bool {
        *self == **text
    }
}

impl Display for Name {
    fn fmt(&self, f: &mut Formatter) -> fmt::Result {
        write!(f, "{}", self.as_bytes().escape_ascii())
    }
}
