//! A writer for each planted mistake, and how they are found.

use second::generate::{self, Random};
use second::writer::{mistake, write, Write};

macro_rules! mistaken {
    ($($number:literal)*) => {
        &[$(($number, write::<$number> as Write)),*]
    };
}

/// A writer for each row of the table of mistakes.
const WRITERS: &[(u8, Write)] = mistaken! {
    1 2 3 4 5 6 7 8 9 10 11 12 13 14 15 16 17 18 19 20 21 22 23 24 25
};

const CALLS: usize = 20_000;

/// Compares each mistaken writer with a reference until it is found, prints how, and fails if one of
/// them never is.
pub fn find_every_mistake(reference: Write) {
    let numbers = WRITERS.iter().map(|&(number, _)| number);
    assert!(numbers.eq(mistake::TABLE.iter().map(|&(number, _)| number)));

    let mut random = Random::new(0);
    let mut found = Vec::new();
    let mut hidden = WRITERS.to_vec();
    for call in 1..=CALLS {
        let writing = generate::writing(&mut random);
        let expected = writing.run(reference);
        hidden.retain(|&(number, write)| {
            let same = writing.run(write) == expected;
            if !same {
                found.push((number, call));
            }
            same
        });
    }
    found.sort_unstable();
    for (number, calls) in found {
        let (_, sentence) = mistake::TABLE[usize::from(number) - 1];
        println!("{number:2} found after {calls:4} calls: {sentence}");
    }
    let hidden: Vec<u8> = hidden.into_iter().map(|(number, _)| number).collect();
    assert_eq!(hidden, [0; 0], "mistakes that were not found");
}
