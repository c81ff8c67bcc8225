//! Why a command ends without having done all that it was asked, and its exit status.

use std::fmt::{self, Display, Formatter};
use std::io;

use quotebook::log::Stop;

/// How a command ended that did what it was asked.
#[derive(Clone, Copy, PartialEq, Eq, Debug)]
pub enum Outcome {
    /// Nothing differs.
    Agreed,
    /// An audit found a difference.
    Difference,
}

/// What stood in the way.
#[derive(Debug)]
pub enum Fault {
    /// The command was not given what it needs.
    Usage(String),
    /// The recording has no head, is cut or damaged, or cannot be read. What stands before was worked.
    Damaged(String),
    /// The output could not be written.
    Output(io::Error),
}

impl Fault {
    pub fn usage<T>(what: impl Into<String>) -> Result<T, Fault> {
        Err(Fault::Usage(what.into()))
    }

    /// The fault of a recording that stops here, if it is one.
    pub fn of_stop(stop: Stop) -> Result<(), Fault> {
        match stop {
            Stop::End(_) => Ok(()),
            Stop::Cut(_) | Stop::Damaged(_) => Err(Fault::Damaged(stop.to_string())),
        }
    }

    pub fn status(&self) -> u8 {
        match self {
            Fault::Usage(_) => 2,
            Fault::Damaged(_) => 3,
            Fault::Output(_) => 4,
        }
    }
}

impl Outcome {
    pub fn status(self) -> u8 {
        match self {
            Outcome::Agreed => 0,
            Outcome::Difference => 1,
        }
    }
}

impl Display for Fault {
    fn fmt(&self, f: &mut Formatter) -> fmt::Result {
        match self {
            Fault::Usage(what) => write!(f, "{what}"),
            Fault::Damaged(what) => write!(f, "the recording: {what}"),
            Fault::Output(error) => write!(f, "the output is lost: {error}"),
        }
    }
}

/// Only output is written by way of `?` on an io result.
impl From<io::Error> for Fault {
    fn from(error: io::Error) -> Fault {
        Fault::Output(error)
    }
}
