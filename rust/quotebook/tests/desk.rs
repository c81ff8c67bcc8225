//! The small program of examples/ prints what it prints in C++ and Python.

use std::process::Command;

#[test]
fn the_desks_program() {
    // cargo puts examples beside the folder of the tests.
    let test = std::env::current_exe().expect("the test's path");
    let folder = test.parent().and_then(|deps| deps.parent());
    let program = folder.expect("a folder").join("examples/desk");
    let run = Command::new(&program).output();
    let run = run.expect("cargo test builds the examples, as cargo build --examples does");
    assert_eq!(String::from_utf8_lossy(&run.stderr), "");
    let expected = include_str!("../../../examples/desk.expected");
    assert_eq!(String::from_utf8_lossy(&run.stdout), expected);
    assert!(run.status.success());
}
