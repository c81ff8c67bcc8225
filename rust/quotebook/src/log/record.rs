//! The records of a log that lies in memory.

use std::fmt::{self, Display, Formatter};

use super::{check, Call, ARGUMENTS_AT, CHECK_LEN, HEAD_LEN, KIND_AT, RECORD_MIN, TIME_AT};
use crate::number::Number;

/// A whole record.
#[derive(Clone, Copy, PartialEq, Eq, Debug)]
pub struct Record<'a> {
    /// Where it begins in the log.
    pub place: u64,
    /// Where it ends, and the next one begins.
    pub next: u64,
    /// The arrival time, in the writer's own unit.
    pub time: u64,
    /// Its call.
    pub call: Call<'a>,
}

/// How reading a log stopped, and where: all records before the place are whole.
#[derive(Clone, Copy, PartialEq, Eq, Debug)]
pub enum Stop {
    /// The log ends behind a whole record.
    End(u64),
    /// The log ends inside the record at this place: it was cut, or the record's length is damaged.
    Cut(u64),
    /// The record at this place is damaged, or holds no call.
    Damaged(u64),
}

impl Stop {
    /// The place: the log's bytes before it can be gone on with.
    pub fn place(self) -> u64 {
        match self {
            Stop::End(place) | Stop::Cut(place) | Stop::Damaged(place) => place,
        }
    }

    /// The number of docs/LOG.md: 0, 91 or 92.
    pub fn number(self) -> u8 {
        match self {
            Stop::End(_) => 0,
            Stop::Cut(_) => 91,
            Stop::Damaged(_) => 92,
        }
    }

    /// The stop that a number of a replay tells.
    pub(super) fn from_number(number: Number, place: u64) -> Stop {
        match number {
            Number::Done => Stop::End(place),
            Number::LogCut => Stop::Cut(place),
            _ => Stop::Damaged(place),
        }
    }
}

impl Display for Stop {
    fn fmt(&self, f: &mut Formatter) -> fmt::Result {
        match self {
            Stop::End(place) => write!(f, "The log ends at byte {place}, behind a whole record."),
            Stop::Cut(place) => write!(f, "The log ends inside the record at byte {place}."),
            Stop::Damaged(place) => write!(f, "The record at byte {place} is damaged."),
        }
    }
}

/// The records of a log's bytes, from a place on.
///
/// ```
/// use quotebook::log::{Call, Head, Records, Stop};
///
/// let mut log = Head::new(1).to_bytes().to_vec();
/// Call::OpenLine { line: 5, letter: b'N' }.write(7, &mut log);
/// Call::StartDay.write(8, &mut log);
/// log.pop();
/// let mut records = Records::new(&log);
/// for record in &mut records {
///     assert_eq!((record.place, record.next, record.time), (16, 38, 7));
///     assert_eq!(record.call, Call::OpenLine { line: 5, letter: b'N' });
/// }
/// assert_eq!(records.stop(), Some(Stop::Cut(38)));
/// ```
#[derive(Clone, Debug)]
pub struct Records<'a> {
    log: &'a [u8],
    place: usize,
}

impl<'a> Records<'a> {
    /// The records behind the head, which is not looked at.
    pub fn new(log: &'a [u8]) -> Records<'a> {
        Records::at(log, HEAD_LEN)
    }

    /// The records from a place on, where one begins.
    pub fn at(log: &'a [u8], place: usize) -> Records<'a> {
        Records { log, place }
    }

    /// How reading stopped; none as long as a record is to come.
    pub fn stop(&self) -> Option<Stop> {
        let left = self.log.get(self.place..).unwrap_or_default();
        entry(left, self.place as u64).err()
    }
}

impl<'a> Iterator for Records<'a> {
    type Item = Record<'a>;

    fn next(&mut self) -> Option<Record<'a>> {
        let left = self.log.get(self.place..)?;
        let record = entry(left, self.place as u64).ok()?;
        self.place = record.next as usize;
        Some(record)
    }
}

/// What stands at a place of a log: `left` is all that it has from there on.
pub(super) fn entry(left: &[u8], place: u64) -> Result<Record<'_>, Stop> {
    if left.is_empty() {
        return Err(Stop::End(place));
    }
    if left.len() < RECORD_MIN {
        return Err(Stop::Cut(place));
    }
    let len = u32::from_be_bytes(field(left, 0)) as usize;
    if len < RECORD_MIN {
        return Err(Stop::Damaged(place));
    }
    let Some(record) = left.get(..len) else {
        return Err(Stop::Cut(place));
    };
    let (checked, last) = record.split_at(len - CHECK_LEN);
    if check(checked) != u32::from_be_bytes(field(last, 0)) {
        return Err(Stop::Damaged(place));
    }
    match Call::read(checked[KIND_AT], &checked[ARGUMENTS_AT..]) {
        None => Err(Stop::Damaged(place)),
        Some(call) => Ok(Record {
            place,
            next: place + len as u64,
            time: u64::from_be_bytes(field(checked, TIME_AT)),
            call,
        }),
    }
}

/// The bytes of a number that stands whole in the record.
fn field<const LEN: usize>(bytes: &[u8], at: usize) -> [u8; LEN] {
    let mut field = [0; LEN];
    field.copy_from_slice(&bytes[at..at + LEN]);
    field
}
