//! A log's head.

use super::{check, HEAD_LEN};

const MARK: [u8; 8] = *b"QBOOKLOG";
const VERSION: u8 = 1;

/// The requests that this library's calls follow: T-01 to T-14.
pub const REQUESTS: u16 = (1 << 14) - 1;

/// What a log's head tells.
#[derive(Clone, Copy, PartialEq, Eq, Debug)]
pub struct Head {
    /// The symbols that the book was made for.
    pub n: u8,
    /// The requests that the calls follow, a bit each: bit 0 for T-01. This library's are [`REQUESTS`].
    pub requests: u16,
}

impl Head {
    /// The head of a log that this library's calls on a book for n symbols are written to.
    pub fn new(n: u8) -> Head {
        Head {
            n,
            requests: REQUESTS,
        }
    }

    /// The head that a log begins with; none if it begins with anything else, or is shorter.
    pub fn read(log: &[u8]) -> Option<Head> {
        let bytes: &[u8; HEAD_LEN] = log.first_chunk()?;
        let head = Head {
            n: bytes[9],
            requests: u16::from_be_bytes([bytes[10], bytes[11]]),
        };
        (*bytes == head.to_bytes()).then_some(head)
    }

    /// The head's bytes.
    pub fn to_bytes(self) -> [u8; HEAD_LEN] {
        let mut bytes = [0; HEAD_LEN];
        bytes[..8].copy_from_slice(&MARK);
        bytes[8] = VERSION;
        bytes[9] = self.n;
        bytes[10..12].copy_from_slice(&self.requests.to_be_bytes());
        let check = check(&bytes[..12]);
        bytes[12..].copy_from_slice(&check.to_be_bytes());
        bytes
    }
}
