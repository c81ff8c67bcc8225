//! The new user's program runs and prints what it should.

use std::process::Command;

#[test]
fn the_new_users_program() {
    // cargo puts examples beside the folder of the tests.
    let test = std::env::current_exe().expect("the test's path");
    let folder = test.parent().and_then(|deps| deps.parent());
    let program = folder.expect("a folder").join("examples/first_block");
    let run = Command::new(&program).output();
    let run = run.expect("cargo test builds the examples, as cargo build --examples does");
    let expected = "\
0: The message was accepted. Changed: national bid, national offer.
1: The message was accepted. Changed: odd bid.
national bid   N R 10.00 x 3
national offer N R 10.02 x 2
FINRA bid      none
FINRA offer    none
odd bid        N 10.01 x 40
odd offer      none
";
    assert_eq!(String::from_utf8_lossy(&run.stderr), "");
    assert_eq!(String::from_utf8_lossy(&run.stdout), expected);
    assert!(run.status.success());
}
