//! Lists of calls: the same seed gives the same list, a printed list can be read back, and a list
//! that fails is made short.

mod common;

use common::reviewer;
use second::build;
use second::compare::compare;
use second::engine::{mistake, Book, Recompute};
use second::shrink::shrink;
use second::{generate, Call, List, QuoteBook};

#[test]
fn a_seed_gives_one_list() {
    for seed in 0..20 {
        let list = generate::list(seed, 150);
        assert_eq!(list.calls.len(), 150);
        assert_eq!(list, generate::list(seed, 150));
        assert_eq!(list.calls[..50], generate::list(seed, 50).calls);
    }
    assert_ne!(generate::list(1, 50), generate::list(2, 50));
}

#[test]
fn a_printed_list_is_read_back() {
    for seed in 0..20 {
        let list = generate::list(seed, 150);
        assert_eq!(list.to_string().parse(), Ok(list));
    }
    let form = "fresh 2\nmake 2\nadd 5a54 100 78\nopen 5 78\nstart\nend\ntake 5 - 180\nread - 96\nprotected 5a54 66 0\nconvert_len -\nconvert 00 72\nsnapshot-len 5a54\nsnapshot - 1706\norder 5a54 83 1000000 325\nallow 255 0102\ntick\n";
    let list: List = form.parse().expect("a list of every call");
    assert_eq!(list.calls.len(), 15);
    assert_eq!(list.to_string(), form);
    for wrong in [
        "",
        "fresh",
        "fresh 1\nmake",
        "fresh 1\ntake 1 0 180",
        "fresh 1\nstop",
    ] {
        assert!(wrong.parse::<List>().is_err());
    }
}

fn gap_refused(n: u32) -> Box<dyn QuoteBook> {
    let book = Book::<Recompute, { mistake::GAP_REFUSED }>::fresh(n);
    Box::new(book.expect("n is 1 to 64"))
}

#[test]
fn a_failing_list_is_made_short() {
    let fails = |list: &List| compare(reviewer, gap_refused, list).is_some();
    let long = (0..).map(|seed| generate::list(seed, 200)).filter(fails);
    // A gap of half the numbers needs a block before it; not all of these are so wide.
    let short = long
        .take(5)
        .map(|list| shrink(&list, fails))
        .min_by_key(|list| list.calls.len())
        .expect("a list with a gap");
    // A line, a day, and one block of one message behind a gap.
    assert_eq!(short.calls.len(), 3, "{short}");
    let Some(Call::TakeBlock { block, .. }) = short.calls.last() else {
        panic!("{short}");
    };
    let (_, messages) = build::split(block).expect("a block");
    assert_eq!(messages.len(), 1);
    // The printed form fails in the same way.
    let read_back: List = short.to_string().parse().expect("a printed list");
    let difference = compare(reviewer, gap_refused, &read_back).expect("it still fails");
    assert_eq!(
        (difference.expected.number, difference.observed.number),
        (70, 35)
    );
    assert_eq!(difference.at, 2);
}
