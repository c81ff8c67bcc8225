//! What stands in the way of a log.

use std::error::Error;
use std::fmt::{self, Display, Formatter};
use std::io;

use super::RECORD_MAX;
use crate::number::Refusal;

/// Why a log was not read, or a call not carried out.
#[derive(Debug)]
pub enum LogError {
    /// The book refused the call. The log holds it: it will be refused again when the log is replayed.
    Refused(Refusal),
    /// The log could not be read or written. A call has not been carried out.
    Io(io::Error),
    /// An earlier write failed: calls are refused until [`Recorder::retry`](super::Recorder::retry)
    /// succeeds.
    Failed,
    /// The call's record would be longer than [`RECORD_MAX`]: it is neither logged nor carried out.
    TooLong,
    /// The log does not begin with a head (number 90).
    NoHead,
    /// The bytes are no checkpoint of this library.
    NoCheckpoint,
    /// The checkpoint was not taken with this log, or the log has lost what stood before it.
    OtherLog,
}

impl Display for LogError {
    fn fmt(&self, f: &mut Formatter) -> fmt::Result {
        match self {
            LogError::Refused(refusal) => refusal.fmt(f),
            LogError::Io(error) => write!(f, "The log cannot be read or written: {error}"),
            LogError::Failed => write!(f, "The log could not be written before."),
            LogError::TooLong => write!(f, "The record would have over {RECORD_MAX} bytes."),
            LogError::NoHead => write!(f, "The log does not begin with a head. (90)"),
            LogError::NoCheckpoint => write!(f, "The bytes are no checkpoint of this library."),
            LogError::OtherLog => write!(f, "The checkpoint does not belong to this log."),
        }
    }
}

impl Error for LogError {
    fn source(&self) -> Option<&(dyn Error + 'static)> {
        match self {
            LogError::Refused(refusal) => Some(refusal),
            LogError::Io(error) => Some(error),
            _ => None,
        }
    }
}

impl From<io::Error> for LogError {
    fn from(error: io::Error) -> LogError {
        LogError::Io(error)
    }
}

impl From<Refusal> for LogError {
    fn from(refusal: Refusal) -> LogError {
        LogError::Refused(refusal)
    }
}
