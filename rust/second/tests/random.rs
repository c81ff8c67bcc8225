//! Random lists of calls on the engine, the incremental engine and the reviewers: after every call
//! all that can be seen of them is equal, and every number, code, flag, case of a resent quote and case
//! of a closed venue is reached.
//!
//! The variables FIRST_SEED and LISTS of the environment choose other lists or more of them.

mod common;

use common::*;
use second::compare::{compare, first_difference, observe, Fresh};
use second::coverage::Coverage;
use second::generate::from_environment;
use second::shrink::shrink;
use second::{generate, List};

const CALLS: usize = 200;

#[test]
fn lists_of_calls() {
    let mut coverage = Coverage::default();
    let first = from_environment("FIRST_SEED", 0);
    let lists = from_environment("LISTS", 800);
    println!("{lists} lists from seed {first} on, {CALLS} calls each");
    for seed in first..first + lists {
        let list = generate::list(seed, CALLS);
        let expected = observe(reviewer, &list);
        coverage.note(&list, &expected);
        let mut others = vec![("engine", engine as Fresh), ("incremental", incremental)];
        if seed % 4 == 0 {
            others.push(("reviewer with a short history", always_shortening));
        }
        for (name, fresh) in others {
            if first_difference(&expected, fresh, &list).is_some() {
                panic!("{}", failure(seed, name, fresh, &list));
            }
        }
    }
    println!("{coverage}");
    assert!(coverage.calls() >= 100_000);
    assert_eq!(coverage.missing(), [""; 0], "not reached");
    assert_eq!(
        coverage.unforeseen(),
        [""; 0],
        "not foreseen by document 01"
    );
}

/// The seed, a short list that reproduces the failure, and the difference that it shows.
fn failure(seed: u64, name: &str, fresh: Fresh, list: &List) -> String {
    let short = shrink(list, |list| compare(reviewer, fresh, list).is_some());
    let difference = compare(reviewer, fresh, &short).expect("a shrunk list still fails");
    format!("seed {seed}: the {name} differs from the reviewer on\n{short}{difference}")
}
