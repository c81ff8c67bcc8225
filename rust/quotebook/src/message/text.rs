//! Symbols and makers: text that is filled up with spaces.

use std::str::FromStr;

use crate::field_error::FieldError;
use crate::lent::SYMBOL_LEN;

const MAKER_LEN: usize = 4;

/// A symbol, eleven bytes. Text is filled up with spaces.
///
/// Other bytes than A to Z, then printable ones, then spaces can be built; a book refuses them (45).
#[derive(Clone, Copy, PartialEq, Eq, PartialOrd, Ord, Hash, Debug)]
pub struct Symbol([u8; SYMBOL_LEN]);

/// A maker's name, four bytes. Text is filled up with spaces.
///
/// Other bytes than one to four of A to Z, then spaces can be built; a book refuses them (48).
#[derive(Clone, Copy, PartialEq, Eq, PartialOrd, Ord, Hash, Debug)]
pub struct Maker([u8; MAKER_LEN]);

/// Text with spaces to its end, none if it is too long.
pub(crate) fn filled_up<const N: usize>(text: &[u8]) -> Option<[u8; N]> {
    let mut bytes = [b' '; N];
    bytes.get_mut(..text.len())?.copy_from_slice(text);
    Some(bytes)
}

impl FromStr for Symbol {
    type Err = FieldError;

    fn from_str(text: &str) -> Result<Symbol, FieldError> {
        let bytes = filled_up(text.as_bytes());
        bytes.map(Symbol).ok_or(FieldError::SymbolTooLong)
    }
}

impl FromStr for Maker {
    type Err = FieldError;

    fn from_str(text: &str) -> Result<Maker, FieldError> {
        let bytes = filled_up(text.as_bytes());
        bytes.map(Maker).ok_or(FieldError::MakerTooLong)
    }
}

impl From<[u8; SYMBOL_LEN]> for Symbol {
    fn from(bytes: [u8; SYMBOL_LEN]) -> Symbol {
        Symbol(bytes)
    }
}

impl From<[u8; MAKER_LEN]> for Maker {
    fn from(bytes: [u8; MAKER_LEN]) -> Maker {
        Maker(bytes)
    }
}

/// All eleven bytes, so that a symbol can be given to a [`Book`](crate::Book).
impl AsRef<[u8]> for Symbol {
    fn as_ref(&self) -> &[u8] {
        &self.0
    }
}

/// All four bytes.
impl AsRef<[u8]> for Maker {
    fn as_ref(&self) -> &[u8] {
        &self.0
    }
}
