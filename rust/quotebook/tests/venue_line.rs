//! The program of docs/DECISIONS.md's way round the venues' numbers runs and prints what it should.

use std::process::Command;

#[test]
fn the_venue_line() {
    // cargo puts examples beside the folder of the tests.
    let test = std::env::current_exe().expect("the test's path");
    let folder = test.parent().and_then(|deps| deps.parent());
    let program = folder.expect("a folder").join("examples/venue_line");
    let run = Command::new(&program).output();
    let run = run.expect("cargo test builds the examples, as cargo build --examples does");
    let expected = "\
taken, 4 is next
The block is a duplicate: its sequence number lies behind the expected one. (35)
0: The message was accepted. Changed: national bid, national offer.
1: The message was accepted. Changed: national bid, national offer.
2: The message was accepted. Changed: national bid, national offer.
0: The message was accepted. Changed: national bid, national offer.
block 2 came already
2 blocks are missing
0: The message was accepted. Changed: national bid, national offer.
national bid   N R 10.00 x 3
national offer N R 10.02 x 2
FINRA bid      none
FINRA offer    none
odd bid        none
odd offer      none
";
    assert_eq!(String::from_utf8_lossy(&run.stderr), "");
    assert_eq!(String::from_utf8_lossy(&run.stdout), expected);
    assert!(run.status.success());
}
