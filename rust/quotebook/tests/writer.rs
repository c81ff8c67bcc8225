//! The writer of blocks: hand-written cases, random calls beside the second implementation's writer,
//! its planted mistakes, and blocks written, taken, taken apart and written again. The memory around
//! every buffer is guarded (see `support/writing.rs`).
//!
//! The variables FIRST_SEED and WRITINGS of the environment choose other calls or more of them.

#[path = "../../second/tests/writer/cases.rs"]
mod cases;
#[path = "../../second/tests/writer/mistaken.rs"]
mod mistaken;
#[path = "../../second/tests/writer/reference.rs"]
mod reference;
mod support;

use quotebook::lent::BLOCK_MAX;
use quotebook::{write_block, Book, Number, Refusal};
use reference::{apart, reference};
use second::generate::{self, from_environment, Random};
use second::writer::{reached::Reached, Write, Writing, Written};
use second::{build, Call};
use support::compared::write_calls;
use support::writing::library;

const WRITERS: [(&str, Write); 1] = [("library", library)];

/// Calls on the library and the second implementation's writer: equal answers, and equal bytes of the
/// whole output.
#[test]
fn random_calls() {
    let first = from_environment("FIRST_SEED", 1_000_000);
    let seeds = from_environment("WRITINGS", 2_000);
    let mut reached = Reached::default();
    println!("the calls of {seeds} seeds from {first} on");
    for seed in first..first + seeds {
        if let Err(failure) = write_calls(seed, &mut reached) {
            panic!("{failure}");
        }
    }
    println!("{reached}");
    assert!(reached.calls() >= 100_000);
    assert_eq!(reached.missing(), [""; 0], "not reached");
}

#[test]
fn the_reference_agrees() {
    let mut random = Random::new(7);
    for at in 0..20_000 {
        let writing = generate::writing(&mut random);
        let expected = writing.run(reference);
        assert_eq!(writing.run(library), expected, "call {at}: {writing:?}");
    }
}

#[test]
fn every_mistake_is_found() {
    mistaken::find_every_mistake(library);
}

/// A book on a closed day with an open line. It takes C I, C T and C 5, and refuses any other block
/// that passes 30 to 34 with 20.
fn closed_book() -> Book {
    let mut book = Book::new(1).expect("a book of one symbol");
    book.open_line(5, b'N').expect("a line");
    book
}

/// Whether a block passes checks 30 to 34 of the block call.
fn passes(book: &mut Book, block: &[u8]) -> bool {
    match book.take_block(5, block) {
        Ok(_) => true,
        Err(Refusal { number, .. }) => number == Number::BlockWhileClosed,
    }
}

/// A block that passes 30 to 34, taken apart and written under its own number, is itself.
fn comes_back(block: &[u8]) {
    let (sequence, messages) = build::split(block).expect("a block");
    let writing = Writing {
        messages: messages.concat(),
        lengths: messages.iter().map(|one| one.len() as u32).collect(),
        sequence,
        room: block.len(),
    };
    let (written, again) = writing.run(library);
    let len = block.len();
    assert_eq!(written, Written { number: 0, len });
    assert_eq!(again, block);
    assert_eq!(write_block(sequence, &messages).as_deref(), Ok(block));
}

/// The blocks of random lists of calls, whole and damaged.
#[test]
fn blocks_of_lists_come_back() {
    let mut book = closed_book();
    let (mut came_back, mut refused) = (0, 0);
    for seed in 0..300 {
        for call in generate::list(seed, 200).calls {
            let Call::TakeBlock { block, .. } = call else {
                continue;
            };
            if passes(&mut book, &block) {
                comes_back(&block);
                came_back += 1;
            } else {
                refused += 1;
            }
        }
    }
    println!("{came_back} blocks came back, {refused} do not pass 30 to 34");
    assert!(came_back > 10_000 && refused > 1_000);
}

/// Blocks of any bytes, cut into messages anywhere and sealed.
#[test]
fn any_blocks_come_back() {
    let mut book = closed_book();
    let mut random = Random::new(11);
    let (mut came_back, mut refused) = (0, 0);
    for _ in 0..50_000 {
        let len = 32 + random.below(BLOCK_MAX - 31);
        let most = ((len - 10) / 22).min(45);
        let count = 1 + random.below(most);
        let mut block = random.bytes(len);
        (block[0], block[1]) = (1, count as u8);
        let mut offset = 10 + 2 * count;
        for left in (1..=count).rev() {
            let place = 10 + 2 * (count - left);
            block[place..place + 2].copy_from_slice(&(offset as u16).to_be_bytes());
            let spare = len - offset - 20 * left;
            offset += 20 + random.below(spare + 1);
        }
        build::seal(&mut block);
        // A C at the beginning of a message is refused if there are others.
        if passes(&mut book, &block) {
            comes_back(&block);
            came_back += 1;
        } else {
            refused += 1;
        }
    }
    println!("{came_back} blocks came back, {refused} do not pass 30 to 34");
    assert!(came_back > 40_000 && refused > 100);
}

/// What is written passes 30 to 34 and yields the same messages.
#[test]
fn written_blocks_are_taken() {
    let mut book = closed_book();
    let mut random = Random::new(13);
    let mut taken = 0;
    for _ in 0..50_000 {
        let writing = generate::writing(&mut random);
        let (Written { number: 0, len }, block) = writing.run(library) else {
            continue;
        };
        let block = &block[..len];
        assert!(passes(&mut book, block), "{writing:?}");
        let messages = apart(&writing.messages, &writing.lengths).expect("lengths that add up");
        assert_eq!(build::split(block), Some((writing.sequence, messages)));
        taken += 1;
    }
    println!("{taken} blocks were written and taken");
    assert!(taken > 10_000);
}

/// The length of the block that carries these messages, or the number that refuses it.
fn written(messages: &[&[u8]]) -> Result<usize, Number> {
    match write_block(1, messages) {
        Ok(block) => Ok(block.len()),
        Err(refusal) => {
            assert_eq!((refusal.expected, refusal.count), (0, 0));
            Err(refusal.number)
        }
    }
}

#[test]
fn write_block_of_messages() {
    let quote = &build::header(b'Q', b'K', b'N', 7)[..];
    let control = &build::header(b'C', b'T', b'N', 7)[..];
    assert_eq!(written(&[]), Err(Number::WriteMessages));
    assert_eq!(written(&[quote; 45]), Ok(1000));
    assert_eq!(written(&[quote; 46]), Err(Number::WriteMessages));
    assert_eq!(written(&[&[b'Q'; 19]]), Err(Number::WriteMessages));
    assert_eq!(written(&[&[b'Q'; 988]]), Ok(1000));
    assert_eq!(written(&[&[b'Q'; 989]]), Err(Number::WriteMessages));
    assert_eq!(written(&[control]), Ok(32));
    assert_eq!(written(&[quote, control]), Err(Number::WriteControl));
    // Whatever gives bytes can be written; of endless messages there are too many.
    let block = build::block(9, &[quote.to_vec(), quote.to_vec()]);
    assert_eq!(write_block(9, vec![quote.to_vec(); 2]).as_ref(), Ok(&block));
    assert_eq!(write_block(9, quote.repeat(2).chunks(20)), Ok(block));
    let endless = write_block(9, std::iter::repeat(quote)).unwrap_err();
    assert_eq!(endless.number, Number::WriteMessages);
    let said = "No messages, over 45, one under 20 bytes, lengths that do not add up, \
                or a block over 1,000. (71)";
    assert_eq!(endless.to_string(), said);
}
