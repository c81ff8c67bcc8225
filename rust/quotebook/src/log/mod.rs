//! The log of calls (docs/LOG.md): each call of a book with its raw arguments, written before it is
//! carried out.
//!
//! A [`Recorder`] is a book that writes one. [`Book::restore`](crate::Book::restore) rebuilds the book
//! from it; so does [`Checkpoint::restore`], which begins in the log's middle. Both are proved to carry
//! out the calls that the log holds, and tell by a [`Stop`] where it ends. [`Records`] and [`LogReader`]
//! read a log without a book.

mod answer;
mod call;
mod checkpoint;
mod error;
mod head;
mod reader;
mod record;
mod recorded;
mod recorder;
mod restore;
mod window;

pub use answer::{Answers, LoggedAnswer, Replayed, ANSWER_MOST};
pub use call::Call;
pub use checkpoint::Checkpoint;
pub use error::LogError;
pub use head::{Head, REQUESTS};
pub use reader::LogReader;
pub use record::{Record, Records, Stop};
pub use recorded::Raw;
pub use recorder::{Flush, Recorder, Sink};
pub use restore::{restore, Restored};

/// The length of a log's head: the first record stands there.
pub const HEAD_LEN: usize = 16;
/// The length of a record without arguments: no record is shorter.
pub const RECORD_MIN: usize = 17;
/// The longest record that a [`LogReader`] holds and a [`Recorder`] writes.
pub const RECORD_MAX: usize = 1 << 20;

/// Where a record has its kind, its time and its arguments.
const KIND_AT: usize = 4;
const TIME_AT: usize = 5;
const ARGUMENTS_AT: usize = 13;
/// The length of a check.
const CHECK_LEN: usize = 4;

/// The check that stands behind these bytes in a head, a record or a checkpoint.
pub fn check(bytes: &[u8]) -> u32 {
    check_on(CHECK_START, bytes)
}

/// The check of no bytes.
const CHECK_START: u32 = 2_166_136_261;

/// The check of bytes that continue others, whose check is given and whose length is a multiple of four.
fn check_on(check: u32, bytes: &[u8]) -> u32 {
    let mix = |check: u32, number: u32| check.wrapping_mul(16_777_619).wrapping_add(number);
    let (words, last) = bytes.as_chunks();
    let check = words
        .iter()
        .fold(check, |check, &word| mix(check, u32::from_be_bytes(word)));
    last.iter()
        .fold(check, |check, &byte| mix(check, u32::from(byte)))
}
