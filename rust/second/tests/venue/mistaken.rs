//! A converter for each planted mistake, and how they are found.

use second::generate::{self, Random};
use second::venue::{convert, mistake, Convert};

use crate::run::lots;

macro_rules! mistaken {
    ($($number:literal)*) => {
        &[$(($number, convert::<$number> as Convert)),*]
    };
}

/// A converter for each row of the table of mistakes.
const CONVERTERS: &[(u8, Convert)] = mistaken! {
    1 2 3 4 5 6 7 8 9 10 11 12 13 14 15 16 17 18 19 20 21 22 23 24 25 26 27 28 29 30 31 32 33 34 35
    36 37 38 39 40 41 42 43 44 45 46 47 48 49 50 51 52 53 54 55 56 57 58 59 60 61 62 63 64 65 66 67
    68 69 70 71 72 73 74
};

const BLOCKS: usize = 20_000;

/// Compares each mistaken converter with a reference until it is found, prints how, and fails if one of
/// them never is.
pub fn find_every_mistake(reference: Convert) {
    let numbers = CONVERTERS.iter().map(|&(number, _)| number);
    assert!(numbers.eq(mistake::TABLE.iter().map(|&(number, _)| number)));

    let mut random = Random::new(0);
    let mut found = Vec::new();
    let mut hidden = CONVERTERS.to_vec();
    for block in 1..=BLOCKS {
        let converting = match block % 4 {
            0 => generate::damaged_venue(&mut random),
            _ => generate::venue(&mut random).0,
        };
        let expected = converting.run(reference, &lots);
        hidden.retain(|&(number, convert)| {
            let same = converting.run(convert, &lots) == expected;
            if !same {
                found.push((number, block));
            }
            same
        });
    }
    found.sort_unstable();
    for (number, blocks) in found {
        let (_, sentence) = mistake::TABLE[usize::from(number) - 1];
        println!("{number:2} found after {blocks:5} blocks: {sentence}");
    }
    let hidden: Vec<u8> = hidden.into_iter().map(|(number, _)| number).collect();
    assert_eq!(hidden, [0; 0], "mistakes that were not found");
}
