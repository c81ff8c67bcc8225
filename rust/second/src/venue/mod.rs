//! The venues' own blocks (document 02, T-11): a block of source document 000 becomes a run of blocks
//! of document 01. The book is asked for round lots only, so it is lent here as a function.

pub mod build;
mod fields;
mod message;
pub mod mistake;
mod rules;
mod run;

use crate::terms::{number, SYMBOL_LEN};

/// What the conversion answers.
#[derive(Clone, Copy, PartialEq, Eq, Debug, Default)]
pub struct Converted {
    /// 0 or the refusal.
    pub number: u8,
    /// The bytes written, 0 after a refusal.
    pub len: usize,
}

impl Converted {
    /// A refusal carries its number and 0 for all else.
    pub fn refused(number: u8) -> Converted {
        Converted { number, len: 0 }
    }
}

/// The round lot of a symbol that is listed.
pub type Lots<'a> = &'a dyn Fn(&[u8; SYMBOL_LEN]) -> Option<u32>;

/// The arguments of one call of a converter, beside the listed symbols.
#[derive(Clone, PartialEq, Eq, Debug)]
pub struct Converting {
    /// The venue's block.
    pub block: Vec<u8>,
    /// The length of the output.
    pub room: usize,
}

impl Converting {
    /// What a converter answers, and every byte of an output that had a pattern.
    pub fn run(&self, convert: Convert, lots: Lots) -> (Converted, Vec<u8>) {
        let mut output: Vec<u8> = (0..self.room).map(|at| 0xA5 ^ at as u8).collect();
        let converted = convert(&self.block, lots, &mut output);
        (converted, output)
    }
}

/// A converter: the venue's block, the listed symbols and the output.
pub type Convert = fn(&[u8], Lots, &mut [u8]) -> Converted;

/// The blocks of a run: each tells its length in its bytes 2-3.
pub fn blocks(mut run: &[u8]) -> impl Iterator<Item = &[u8]> {
    std::iter::from_fn(move || {
        let len = usize::from(u16::from_be_bytes([*run.get(2)?, *run.get(3)?]));
        let (block, left) = run.split_at_checked(len)?;
        run = left;
        Some(block)
    })
}

/// How many bytes the conversion writes, under a planted mistake (0 for none).
pub fn convert_len<const M: u8>(block: &[u8]) -> Converted {
    match rules::read::<M>(block) {
        Ok(block) => Converted {
            number: number::DONE,
            len: needed::<M>(&block),
        },
        Err(number) => Converted::refused(number),
    }
}

fn needed<const M: u8>(block: &rules::Block) -> usize {
    let lens: Vec<usize> = block
        .quotes
        .iter()
        .map(|(_, quote)| run::len(quote))
        .collect();
    run::needed::<M>(&lens)
}

/// The conversion, under a planted mistake (0 for none).
pub fn convert<const M: u8>(block: &[u8], lots: Lots, output: &mut [u8]) -> Converted {
    let block = match rules::read::<M>(block) {
        Ok(block) => block,
        Err(number::VENUE_UNPLACED) if M == mistake::SHORT_FIRST && output.is_empty() => {
            return Converted::refused(number::CONVERT_SHORT);
        }
        Err(number) => return Converted::refused(number),
    };
    let needed = needed::<M>(&block);
    let messages: Vec<Vec<u8>> = block
        .quotes
        .iter()
        .map(|(header, quote)| run::message::<M>(header, quote, lots))
        .collect();
    let run = run::run::<M>(block.sequence, &messages);
    assert_eq!(needed, run.len(), "the length worked out first");
    let short = match M {
        mistake::JUST_ENOUGH_REFUSED => output.len() <= needed,
        _ => output.len() < needed,
    };
    if short {
        if M == mistake::SHORT_FILLED {
            let len = output.len();
            output.copy_from_slice(&run[..len]);
        }
        return match M {
            mistake::LENGTH_TOLD => Converted {
                number: number::CONVERT_SHORT,
                len: needed,
            },
            _ => Converted::refused(number::CONVERT_SHORT),
        };
    }
    let (front, behind) = output.split_at_mut(needed);
    front.copy_from_slice(&run);
    if M == mistake::BEHIND_CLEARED {
        behind.fill(0);
    }
    Converted {
        number: number::DONE,
        len: needed,
    }
}
