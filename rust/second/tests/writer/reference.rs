//! A writer that knows none of its own checks: the block that [`build`] makes of the messages is
//! written unless the reviewer refuses it by 30 to 34.

use second::writer::Written;
use second::{build, QuoteBook, Reviewer};

pub fn reference(messages: &[u8], lengths: &[u32], sequence: u32, block: &mut [u8]) -> Written {
    let Some(messages) = apart(messages, lengths) else {
        return Written::refused(71);
    };
    let whole = build::block(sequence, &messages);
    match line_number(&whole) {
        30 | 33 => return Written::refused(71),
        34 => return Written::refused(72),
        number => assert!(matches!(number, 0 | 20), "{number}"),
    }
    let Some(front) = block.get_mut(..whole.len()) else {
        return Written::refused(73);
    };
    front.copy_from_slice(&whole);
    Written {
        number: 0,
        len: whole.len(),
    }
}

/// The messages one by one, if their lengths are together all bytes lent.
pub fn apart(messages: &[u8], lengths: &[u32]) -> Option<Vec<Vec<u8>>> {
    let mut left = messages;
    let mut apart = Vec::new();
    for &len in lengths {
        let (message, behind) = left.split_at_checked(len as usize)?;
        apart.push(message.to_vec());
        left = behind;
    }
    left.is_empty().then_some(apart)
}

/// What the reviewer answers on an open line of a closed day: 30 to 34, or none of these.
fn line_number(block: &[u8]) -> u8 {
    let mut book = Reviewer::fresh(1).expect("a book of one symbol");
    assert_eq!(book.open_line(5, b'N'), 0);
    book.take_block(5, block, &mut [0; 180]).number
}
