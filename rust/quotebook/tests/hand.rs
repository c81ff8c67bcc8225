//! Every hand-written case of the second implementation, on the library: document 01's cases, each
//! number and code in its place, and the accident that the mission names.

#[path = "../../second/tests/hand/desk.rs"]
mod desk;
mod support;

#[path = "../../second/tests/hand/accident.rs"]
mod accident;
#[path = "../../second/tests/hand/allowance.rs"]
mod allowance;
#[path = "../../second/tests/hand/cases.rs"]
mod cases;
#[path = "../../second/tests/hand/closed.rs"]
mod closed;
#[path = "../../second/tests/hand/entries.rs"]
mod entries;
#[path = "../../second/tests/hand/finra_odd_lots.rs"]
mod finra_odd_lots;
#[path = "../../second/tests/hand/halts.rs"]
mod halts;
#[path = "../../second/tests/hand/leading.rs"]
mod leading;
#[path = "../../second/tests/hand/line.rs"]
mod line;
#[path = "../../second/tests/hand/messages.rs"]
mod messages;
#[path = "../../second/tests/hand/operator.rs"]
mod operator;
#[path = "../../second/tests/hand/orders.rs"]
mod orders;
#[path = "../../second/tests/hand/protection.rs"]
mod protection;
#[path = "../../second/tests/hand/snapshots.rs"]
mod snapshots;
#[path = "../../second/tests/hand/times.rs"]
mod times;

use second::compare::Fresh;

const BOOKS: [(&str, Fresh); 1] = [("library", support::library)];
