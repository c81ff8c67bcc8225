//! The six entries as a person reads them.

use quotebook::{Entry, Publication};

use crate::play::Entries;
use crate::row;
use crate::table::Cell;

/// The entries' short names, in the order in which they are published and flagged.
pub const NAMES: [&str; 6] = ["NB", "NO", "FB", "FO", "OB", "OO"];

/// The six entries.
pub fn decoded(entries: &Entries) -> [Option<Entry>; 6] {
    Publication::from_bytes(entries)
        .entries()
        .map(|(_, entry)| entry)
}

/// The bytes of one entry.
pub fn bytes(entries: &Entries, at: usize) -> &[u8] {
    &entries[16 * at..16 * (at + 1)]
}

/// The short names of flagged entries.
pub fn flags(flags: u8) -> String {
    let names = NAMES.iter().enumerate();
    let set = names.filter(|(i, _)| flags & 1 << i != 0);
    set.map(|(_, &name)| name).collect::<Vec<_>>().join(" ")
}

/// An entry in one text, `none` if there is none.
pub fn text(entry: Option<Entry>) -> String {
    entry.map_or("none".to_string(), |entry| entry.to_string())
}

/// The columns of [`cells`].
pub const COLUMNS: [&str; 5] = ["name", "condition", "price", "size", "ahead"];

/// An entry in five cells: name, condition, price, size, and what put it ahead of the second best.
pub fn cells(entry: Option<Entry>) -> Vec<Cell> {
    let Some(entry) = entry else {
        return vec![Cell::None; COLUMNS.len()];
    };
    let condition = entry.condition.map(|byte| byte.escape_ascii().to_string());
    let ahead = entry.reason.map(|reason| reason.to_string());
    row![
        entry.name.to_string(),
        condition,
        entry.price,
        entry.size,
        ahead
    ]
}
