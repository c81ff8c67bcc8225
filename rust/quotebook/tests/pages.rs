//! Damaged pages, an accepted message on each, beside a plain walk of every quote. `make damaged-pages`
//! does it on 200,000 pages and more.

mod support;

use support::pages::run;

const PAGES: u64 = 6_000;

#[test]
fn damaged_pages() {
    let met = run(PAGES, 0).unwrap_or_else(|difference| panic!("{difference}"));
    println!("{met}");
    assert!(met.by.iter().all(|&times| times > 100), "{met}");
    assert!(met.odd > 100 && met.foreign > 100, "{met}");
}
