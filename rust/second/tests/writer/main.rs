//! The writer: hand-written cases, random calls, and its planted mistakes. The reference is what the
//! reviewer says of the block that [`second::build`] makes.

mod cases;
mod mistaken;
mod reference;

use reference::reference;
use second::generate::{self, Random};
use second::writer::{mistake, reached::Reached, write, Write};

const WRITER: Write = write::<{ mistake::NONE }>;
const WRITERS: [(&str, Write); 2] = [("writer", WRITER), ("reference", reference)];

const CALLS: usize = 100_000;

#[test]
fn random_calls() {
    let mut random = Random::new(0);
    let mut reached = Reached::default();
    for at in 0..CALLS {
        let writing = generate::writing(&mut random);
        let expected = writing.run(reference);
        assert_eq!(writing.run(WRITER), expected, "call {at}: {writing:?}");
        reached.note(&writing, expected.0);
    }
    println!("{reached}");
    assert_eq!(reached.missing(), [""; 0], "not reached");
}

#[test]
fn every_mistake_is_found() {
    mistaken::find_every_mistake(reference);
}
