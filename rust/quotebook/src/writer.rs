//! Writing blocks.

use crate::lent::{self, BLOCK_MAX, MESSAGES_MAX};
use crate::number::{Number, Refusal};

/// What the writer reports.
#[derive(Clone, Copy, PartialEq, Eq, Debug)]
pub struct Written {
    /// [`Number::Done`], or why no block was written.
    pub number: Number,
    /// The bytes of the block, 0 if none was written.
    pub len: usize,
}

/// Writes the block that carries these messages under a sequence number, that of its first message.
///
/// A message is any bytes: those that a builder of [`message`](crate::message) gives, or others. A
/// block has 1 to 45 messages of at least 20 bytes and is at most 1,000 bytes long
/// ([`Number::WriteMessages`]); a control message is alone in its block ([`Number::WriteControl`]).
/// Nothing else is asked: what a message says is judged by the book that takes it.
///
/// ```
/// use quotebook::message::{self, Header};
/// use quotebook::{write_block, Number};
///
/// let header = Header::new(b'N', 7);
/// let alone = write_block(1, [message::line_integrity(header)])?;
/// assert_eq!(alone.len(), 32);
///
/// let two = [message::line_integrity(header), message::inquiry(header)];
/// assert_eq!(write_block(1, &two).unwrap_err().number, Number::WriteControl);
/// # Ok::<(), quotebook::Refusal>(())
/// ```
pub fn write_block<M: AsRef<[u8]>>(
    sequence: u32,
    messages: impl IntoIterator<Item = M>,
) -> Result<Vec<u8>, Refusal> {
    let mut bytes = Vec::new();
    let mut lengths = Vec::new();
    // One message too many is refused, so no more need be looked at.
    for message in messages.into_iter().take(MESSAGES_MAX + 1) {
        let message = message.as_ref();
        bytes.extend_from_slice(message);
        lengths.push(u32::try_from(message.len()).unwrap_or(u32::MAX));
    }
    let mut block = [0; BLOCK_MAX];
    let written = lent::write_block(&bytes, &lengths, sequence, &mut block);
    written.number.result()?;
    Ok(block[..written.len].to_vec())
}
