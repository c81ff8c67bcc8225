//! Each planted mistake of the engine is found by the comparison with the library.

#[path = "../../second/tests/mistaken/mod.rs"]
mod mistaken;
mod support;

use second::compare::compare;
use second::engine::mistake;
use second::generate;
use support::library;

#[test]
fn every_mistake_is_found() {
    mistaken::find_every_mistake(library);
}

#[test]
fn without_a_mistake_nothing_is_found() {
    for seed in 0..20 {
        let list = generate::list(seed, mistaken::CALLS);
        assert!(compare(library, mistaken::engine::<{ mistake::NONE }>, &list).is_none());
        assert!(compare(library, mistaken::incremental::<{ mistake::NONE }>, &list).is_none());
    }
}
