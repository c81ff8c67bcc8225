//! Hand-written cases with their answers. Each runs on every one of `BOOKS`: here the engine, the
//! incremental engine and the reviewer; the tests of `quotebook` run the same files on the proved
//! library.

#[path = "../common/mod.rs"]
mod common;
mod desk;

mod accident;
mod allowance;
mod cases;
mod closed;
mod entries;
mod finra_odd_lots;
mod halts;
mod leading;
mod line;
mod messages;
mod operator;
mod orders;
mod protection;
mod snapshots;
mod times;

use common::BOOKS;
