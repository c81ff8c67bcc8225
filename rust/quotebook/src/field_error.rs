//! Values that their field of a message cannot hold.

use std::error::Error;
use std::fmt::{self, Display, Formatter};

/// Text that does not fit its field of a message.
#[derive(Clone, Copy, PartialEq, Eq, Debug)]
pub enum FieldError {
    /// A price is not digits, and perhaps a point with one to six digits behind it.
    PriceForm,
    /// A price is above 18446744073709.551615.
    PriceTooLarge,
    /// A symbol is over eleven bytes.
    SymbolTooLong,
    /// A maker is over four bytes.
    MakerTooLong,
}

/// One plain sentence.
impl Display for FieldError {
    fn fmt(&self, f: &mut Formatter) -> fmt::Result {
        f.pad(match self {
            FieldError::PriceForm => {
                "The price is not digits, and perhaps a point with one to six digits behind it."
            }
            FieldError::PriceTooLarge => "The price is above 18446744073709.551615.",
            FieldError::SymbolTooLong => "The symbol is over eleven bytes.",
            FieldError::MakerTooLong => "The maker is over four bytes.",
        })
    }
}

impl Error for FieldError {}
