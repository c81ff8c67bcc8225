//! Each planted mistake of the engine is found by the comparison with the reviewer.

mod common;
mod mistaken;

use common::reviewer;
use mistaken::{engine, find_every_mistake, incremental, CALLS};
use second::compare::compare;
use second::engine::mistake;
use second::generate;

#[test]
fn every_mistake_is_found() {
    find_every_mistake(reviewer);
}

#[test]
fn without_a_mistake_nothing_is_found() {
    for seed in 0..20 {
        let list = generate::list(seed, CALLS);
        assert!(compare(reviewer, engine::<{ mistake::NONE }>, &list).is_none());
        assert!(compare(reviewer, incremental::<{ mistake::NONE }>, &list).is_none());
    }
}
