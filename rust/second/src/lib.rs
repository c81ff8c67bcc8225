//! The second implementation of the quote book, written from documents 01 and 02 alone.
//!
//! - [`Engine`] keeps native structs and works out a touched symbol's six entries after each
//!   accepted message; [`Incremental`] is the same engine and ranks a side again only when its
//!   leader worsens or leaves.
//! - [`Reviewer`] holds a history of accepted messages and works out every answer anew from it;
//!   [`LongReviewer`] is the same reviewer for days of any length.
//! - [`writer`] makes a block of messages.
//! - [`venue`] makes a run of blocks of a venue's own block (source document 000).
//! - [`snapshot`] is a subscriber of the snapshot feed: it reads back what the books write.
//! - [`generate`] makes random lists of calls, [`compare`] runs a list on several books, [`shrink`]
//!   makes a list short on which they differ, and [`coverage`] counts what the lists reach.
//! - [`log`] reads and writes logs of calls, from docs/LOG.md alone.
//! - [`mixing`] gives the blocks of several lines to books in different orders (T-09).
//!
//! Engine and reviewer share the constants of [`terms`] and the answers of [`quote_book`],
//! nothing else: every check and every rule is written twice.

#![forbid(unsafe_code)]
#![warn(missing_docs)]

pub mod build;
pub mod call;
pub mod compare;
pub mod coverage;
pub mod engine;
pub mod generate;
pub mod log;
pub mod mixing;
pub mod quote_book;
pub mod reviewer;
pub mod shrink;
pub mod snapshot;
pub mod terms;
pub mod venue;
pub mod writer;

pub use call::{Call, List};
pub use engine::{Engine, Incremental};
pub use quote_book::{Protected, QuoteBook, Report, SnapshotSize, Tried};
pub use reviewer::{LongReviewer, Reviewer};
pub use venue::Converted;
