//! Random lists of calls on 500 symbols, each on one of the shelves in turn: after every call all that can be seen of a shelf is what one
//! large book of the second implementation shows.
//!
//! The variables FIRST_SEED and LISTS of the environment choose other lists or more of them. A list that
//! fails is made short, unless SHRINK is 0.

mod support;

use second::generate::from_environment;
use support::compared::{run, Reached, SHELVES};

/// The numbers that each call must have answered.
const NUMBERS: [(&str, &[u8]); 15] = [
    ("make", &[0, 2]),
    ("add", &[0, 3, 4, 5, 6, 75]),
    ("open", &[0, 7, 8]),
    ("start", &[0, 11]),
    ("end", &[0, 12]),
    ("take", &[0, 9, 20, 21, 30, 31, 32, 33, 34, 35, 70, 86]),
    ("read", &[0, 9, 10]),
    ("protected", &[0, 10, 74]),
    ("convert_len", &[0, 78, 79]),
    ("convert", &[0, 78, 79, 80]),
    ("snapshot-len", &[0, 10]),
    ("snapshot", &[0, 10, 81]),
    ("order", &[0, 10, 74, 82, 83]),
    ("set", &[0, 84, 85]),
    ("tick", &[0]),
];

const CODES: [u8; 18] = [
    0, 40, 41, 42, 43, 44, 45, 46, 47, 48, 49, 60, 61, 62, 63, 64, 76, 77,
];

const CASES: [&str; 9] = [
    "FINRA Close or Open rejected",
    "FINRA Close with flags",
    "FINRA Close without a flag",
    "FINRA Open with flags",
    "FINRA Open without a flag",
    "a status, and flags",
    "inquiry, integrity or test",
    "more than ten messages",
    "partly accepted",
];

#[test]
fn lists_of_calls() {
    let first = from_environment("FIRST_SEED", 48);
    let lists = from_environment("LISTS", 24);
    println!("{lists} lists from seed {first} on");
    let mut reached = Reached::default();
    for seed in first..first + lists {
        let compared = &SHELVES[(seed % SHELVES.len() as u64) as usize];
        if let Err(failure) = run(seed, compared, &mut reached) {
            panic!("{failure}");
        }
    }
    println!("{} messages", reached.messages);
    for (call, numbers) in NUMBERS {
        for &number in numbers {
            assert!(reached.numbers.contains(&(call, number)), "{call} {number}");
        }
    }
    assert!(reached.codes.iter().eq(CODES.iter()), "{:?}", reached.codes);
    assert!(reached.cases.iter().eq(CASES.iter()), "{:?}", reached.cases);
}
