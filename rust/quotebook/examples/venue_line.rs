//! A venue's own blocks on a line.
//!
//! A venue numbers its blocks, a book the messages in them: a block of three messages under number 1 leaves the line at 4, and
//! the venue's next block, number 2, would be a duplicate. So each block of a run is written anew here, under the number that the
//! line expects. What that loses: the book sees neither what the venue skips (70) nor what it sends twice (35). The venue's own
//! numbers have to be compared by the caller, as below.

use quotebook::{write_block, Book, Refusal};

/// A venue's line: the line's number in the book, and the venue's next block number.
struct VenueLine {
    line: u32,
    next_block: u32,
}

impl VenueLine {
    /// Converts a venue's block and lets the book take it.
    fn take(&mut self, book: &mut Book, venue_block: &[u8]) -> Result<(), Refusal> {
        let run = book.convert(venue_block)?;
        let number = number_at(venue_block, 3);
        match number.wrapping_sub(self.next_block) {
            0 => {}
            missing @ 1..=0x7FFF_FFFF => println!("{missing} blocks are missing"),
            _ => {
                println!("block {number} came already");
                return Ok(());
            }
        }
        self.next_block = number.wrapping_add(1);
        for block in &run {
            // An empty block is refused, and the refusal tells what the line expects.
            let expected = match book.take_block(self.line, &[]) {
                Err(refusal) => refusal.expected,
                Ok(_) => unreachable!("an empty block is no block"),
            };
            let block = write_block(expected, messages(block))?;
            for answer in book.take_block(self.line, &block)?.answers() {
                println!("{answer}");
            }
        }
        Ok(())
    }
}

fn number_at(bytes: &[u8], at: usize) -> u32 {
    u32::from_be_bytes([bytes[at], bytes[at + 1], bytes[at + 2], bytes[at + 3]])
}

/// The messages of a block of ours, by its table of offsets.
fn messages(block: &[u8]) -> impl Iterator<Item = &[u8]> {
    let offset = |at: usize| usize::from(u16::from_be_bytes([block[at], block[at + 1]]));
    let count = usize::from(block[1]);
    (0..count).map(move |i| {
        let end = if i + 1 < count {
            offset(12 + 2 * i)
        } else {
            block.len()
        };
        &block[offset(10 + 2 * i)..end]
    })
}

/// A venue's block of short quotes by N (000, 6.3.2.1): cents and shares of bid and offer.
fn venue_block(number: u32, quotes: &[[u16; 4]]) -> Vec<u8> {
    let mut block = vec![0, 0, 0];
    block.extend(number.to_be_bytes());
    block.extend([quotes.len() as u8, 0, 0]);
    for (i, quote) in quotes.iter().enumerate() {
        block.extend(42u16.to_be_bytes());
        block.extend(b"QPN");
        block.extend([1_779_111_000u32, 0].map(u32::to_be_bytes).concat());
        block.push(i as u8 + 1);
        block.extend(b"    \0\0\0\0\0\0\0\0ZT   ");
        block.extend(quote.map(u16::to_be_bytes).concat());
        block.extend(b" \0\0");
    }
    let len = block.len() as u16;
    block[1..3].copy_from_slice(&len.to_be_bytes());
    let sum = block
        .iter()
        .fold(0u16, |sum, &byte| sum.wrapping_add(u16::from(byte)));
    block[8..10].copy_from_slice(&sum.to_be_bytes());
    block
}

fn main() -> Result<(), Box<dyn std::error::Error>> {
    let mut book = Book::new(1)?;
    book.add_symbol("ZT", 100, b'N')?; // round lots of 100 shares
    book.open_line(5, b'N')?;
    book.start_day()?;

    let three = [
        [1000, 300, 1002, 250],
        [1001, 300, 1003, 99],
        [1000, 500, 1002, 200],
    ];
    let first = venue_block(1, &three);
    let second = venue_block(2, &[[1000, 400, 1001, 200]]);

    // As it stands, the second block is a duplicate.
    let mut straight = book.clone();
    for block in [&first, &second] {
        for block in &straight.convert(block)? {
            match straight.take_block(5, block) {
                Ok(taken) => println!("taken, {} is next", taken.report.expected),
                Err(refusal) => println!("{refusal}"),
            }
        }
    }

    // Written anew, all of them are taken.
    let mut line = VenueLine {
        line: 5,
        next_block: 1,
    };
    for block in [&first, &second, &second, &venue_block(5, &three[..1])] {
        line.take(&mut book, block)?;
    }
    print!("{}", book.read("ZT")?);
    Ok(())
}
