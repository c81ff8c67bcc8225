//! Runs of blocks that venues' own blocks are converted to.

use crate::number::Number;

/// What [`lent::convert`](crate::lent::convert) and [`lent::convert_len`](crate::lent::convert_len)
/// report.
#[derive(Clone, Copy, PartialEq, Eq, Debug)]
pub struct Converted {
    /// [`Number::Done`], or why the call was refused.
    pub number: Number,
    /// The bytes of the run, 0 after a refusal.
    pub len: usize,
}

impl Converted {
    pub(crate) fn from_fields(number: Number, [_, len]: [u64; 2]) -> Converted {
        Converted {
            number,
            len: len as usize,
        }
    }
}

/// A venue's block as a run of blocks for [`Book::take_block`](crate::Book::take_block).
///
/// The first block has the venue block's own number, each next one the number that follows it.
#[derive(Clone, PartialEq, Eq, Debug)]
pub struct Run {
    bytes: Vec<u8>,
}

impl Run {
    /// The run of blocks that stand end to end in these bytes, each with its length in its bytes 2-3.
    pub fn from_bytes(bytes: Vec<u8>) -> Run {
        Run { bytes }
    }

    /// The blocks in their order.
    pub fn blocks(&self) -> Blocks<'_> {
        Blocks { left: &self.bytes }
    }

    /// The blocks end to end, each with its length in its bytes 2-3.
    pub fn as_bytes(&self) -> &[u8] {
        &self.bytes
    }
}

impl<'a> IntoIterator for &'a Run {
    type Item = &'a [u8];
    type IntoIter = Blocks<'a>;

    fn into_iter(self) -> Blocks<'a> {
        self.blocks()
    }
}

/// The blocks of a [`Run`].
#[derive(Clone, Debug)]
pub struct Blocks<'a> {
    left: &'a [u8],
}

impl<'a> Iterator for Blocks<'a> {
    type Item = &'a [u8];

    /// None at the end, and where no whole block begins.
    fn next(&mut self) -> Option<&'a [u8]> {
        let &[_, _, high, low, ..] = self.left else {
            return None;
        };
        let len = usize::from(u16::from_be_bytes([high, low]));
        let (block, left) = self.left.split_at_checked(len.max(4))?;
        self.left = left;
        Some(block)
    }
}
