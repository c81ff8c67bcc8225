//! Random lists of calls on the library, the engine and the reviewer: after every call all that can
//! be seen of them is equal, and every number, code and flag is reached. The memory around every
//! buffer is guarded, a refused call changes no byte, and a block changes no page but those that it
//! may (see `support/guarded.rs`).
//!
//! The variables FIRST_SEED and LISTS of the environment choose other lists or more of them.

mod support;

use second::coverage::Coverage;
use second::generate::from_environment;
use support::compared::{run, CALLS};

#[test]
fn lists_of_calls() {
    let mut coverage = Coverage::default();
    let first = from_environment("FIRST_SEED", 1_000_000);
    let lists = from_environment("LISTS", 600);
    println!("{lists} lists from seed {first} on, {CALLS} calls each");
    for seed in first..first + lists {
        if let Err(failure) = run(seed, &mut coverage) {
            panic!("{failure}");
        }
    }
    println!("{coverage}");
    assert!(coverage.calls() >= 100_000);
    assert_eq!(coverage.missing(), [""; 0], "not reached");
    let unforeseen = coverage.unforeseen();
    assert_eq!(unforeseen, [""; 0], "not foreseen by document 01");
}
