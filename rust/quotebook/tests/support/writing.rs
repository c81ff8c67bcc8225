//! The library's writer on guarded memory.

use quotebook::lent;
use second::writer::Written;

use super::guarded::Fenced;

/// What one call of the writer is lent.
pub struct Lent<'a> {
    messages: &'a [u8],
    lengths: &'a [u32],
    block: &'a [u8],
    pub guarded_messages: Fenced,
    pub guarded_lengths: Fenced<u32>,
    pub guarded_block: Fenced,
}

impl<'a> Lent<'a> {
    pub fn new(messages: &'a [u8], lengths: &'a [u32], block: &'a [u8]) -> Lent<'a> {
        Lent {
            messages,
            lengths,
            block,
            guarded_messages: Fenced::new(messages),
            guarded_lengths: Fenced::new(lengths),
            guarded_block: Fenced::new(block),
        }
    }

    pub fn write(&mut self, sequence: u32) -> Written {
        let written = lent::write_block(
            self.guarded_messages.bytes(),
            self.guarded_lengths.bytes(),
            sequence,
            self.guarded_block.bytes_mut(),
        );
        Written {
            number: u8::from(written.number),
            len: written.len,
        }
    }

    /// What was written that may not be: anything around a buffer, messages or lengths, and of the
    /// output all after a refusal, else what is behind the block.
    pub fn broken(&self, written: Written) -> Option<&'static str> {
        if !self.guarded_messages.keeps(self.messages) {
            return Some("a byte of or around the messages was written");
        }
        if !self.guarded_lengths.keeps(self.lengths) {
            return Some("a number of or around the lengths was written");
        }
        if !self.guarded_block.stands() {
            return Some("a byte around the output was written");
        }
        if written.number != 0 && written.len != 0 {
            return Some("a length was told after a refusal");
        }
        let output = self.guarded_block.bytes();
        if output[written.len..] != self.block[written.len..] {
            return Some("a byte of the output was written that is not the block's");
        }
        None
    }
}

/// The library as a writer that others can be compared with.
pub fn library(messages: &[u8], lengths: &[u32], sequence: u32, block: &mut [u8]) -> Written {
    let before = block.to_vec();
    let mut lent = Lent::new(messages, lengths, &before);
    let written = lent.write(sequence);
    if let Some(what) = lent.broken(written) {
        panic!("{written:?} for lengths {lengths:?}: {what}");
    }
    block.copy_from_slice(lent.guarded_block.bytes());
    written
}
