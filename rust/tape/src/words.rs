//! Numbers, codes, flags and prices in words.

use crate::output::ENTRIES;

/// Why a block was refused.
pub fn refusal(number: u8) -> &'static str {
    match number {
        21 => "the line is not open",
        30 => "wrong length",
        31 => "unknown version",
        32 => "wrong checksum",
        33 => "messages do not fit the block",
        34 => "a control message is not alone",
        35 => "a duplicate",
        _ => "an unknown number",
    }
}

/// What was wrong with a message, or with its odd part.
pub fn fault(code: u8) -> &'static str {
    match code {
        40 => "unknown type",
        41 => "the letter is not the line's",
        42 => "wrong length",
        43 => "a fixed byte is wrong",
        44 => "does not belong on this line",
        45 => "the symbol is not listed",
        46 => "unknown condition",
        47 => "a size without a price",
        48 => "malformed maker",
        49 => "sixteen makers stand",
        60 => "unknown clear mark",
        61 => "more than four odd lots of a side",
        62 => "an odd lot without a price",
        63 => "an odd lot too large",
        64 => "a fifth odd-lot price",
        76 => "not by the primary exchange",
        77 => "unknown status",
        _ => "an unknown code",
    }
}

/// The status of a T S, none if it is too short.
pub fn status(status: Option<&u8>) -> String {
    match status {
        Some(b'H') => "TRADING HALTED".to_string(),
        Some(b'T') => "trading".to_string(),
        _ => "trading status".to_string(),
    }
}

/// The entries that changed, by their names in the tape program's output.
pub fn changed(flags: u8) -> String {
    let changed: Vec<&str> = (0..6)
        .filter(|bit| flags >> bit & 1 == 1)
        .map(|bit| ENTRIES[bit])
        .collect();
    changed.join(" ")
}

/// What put a national leader ahead of the second best, by the third byte of its entry.
pub fn reason(byte: u8) -> &'static str {
    match byte {
        b'P' => "by price",
        b'S' => "by size",
        b'T' => "by time",
        b'L' => "by letter",
        _ => "",
    }
}

/// A price of six implied decimals, of which zeros behind the second are left out.
pub fn decimal(price: u64) -> String {
    let (whole, millionths) = (price / 1_000_000, price % 1_000_000);
    let decimals = format!("{millionths:06}");
    let kept = decimals.trim_end_matches('0').len().max(2);
    format!("{whole}.{}", &decimals[..kept])
}

#[cfg(test)]
mod tests {
    use super::*;

    #[test]
    fn prices_are_decimals() {
        assert_eq!(decimal(0), "0.00");
        assert_eq!(decimal(1), "0.000001");
        assert_eq!(decimal(10_020_000), "10.02");
        assert_eq!(decimal(227_415_000), "227.415");
        assert_eq!(decimal(u64::MAX), "18446744073709.551615");
    }

    #[test]
    fn flags_are_entries() {
        assert_eq!(changed(0), "");
        assert_eq!(changed(1 + 2 + 32), "NB NO OO");
        assert_eq!(changed(63), "NB NO FB FO OB OO");
    }
}
