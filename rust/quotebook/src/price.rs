//! Prices: whole numbers of millionths, read and shown as decimals. No price is ever a float.

use std::fmt::{self, Display, Formatter};
use std::str::FromStr;

use crate::field_error::FieldError;

const DECIMALS: usize = 6;
const ONE: u64 = 1_000_000;

/// A price in millionths: six implied decimals. `Price(10_020_000)` is 10.02.
///
/// ```
/// use quotebook::Price;
///
/// assert_eq!("10.02".parse(), Ok(Price(10_020_000)));
/// assert_eq!(Price(10_020_000).to_string(), "10.02");
/// assert!("10.0000001".parse::<Price>().is_err());
/// ```
#[derive(Clone, Copy, PartialEq, Eq, PartialOrd, Ord, Hash, Debug, Default)]
pub struct Price(pub u64);

/// A decimal number with two to six decimals, as many as are needed.
impl Display for Price {
    fn fmt(&self, f: &mut Formatter) -> fmt::Result {
        let decimals = format!("{:06}", self.0 % ONE);
        let (cents, rest) = decimals.split_at(2);
        let text = format!("{}.{cents}{}", self.0 / ONE, rest.trim_end_matches('0'));
        f.pad(&text)
    }
}

/// Digits, and perhaps a point with one to six digits behind it. Exact: nothing is rounded.
impl FromStr for Price {
    type Err = FieldError;

    fn from_str(text: &str) -> Result<Price, FieldError> {
        let (whole, decimals) = text.split_once('.').unwrap_or((text, "0"));
        let is_number =
            |digits: &str| !digits.is_empty() && digits.bytes().all(|byte| byte.is_ascii_digit());
        if !is_number(whole) || !is_number(decimals) || decimals.len() > DECIMALS {
            return Err(FieldError::PriceForm);
        }
        let millionths = format!("{whole}{decimals:0<DECIMALS$}");
        let millionths = millionths.parse();
        millionths.map(Price).or(Err(FieldError::PriceTooLarge))
    }
}
