//! The program that crashes and goes on prints what it should.

use std::process::Command;

#[test]
fn the_program_that_crashes() {
    let test = std::env::current_exe().expect("the test's path");
    let folder = test.parent().and_then(|deps| deps.parent());
    let program = folder.expect("a folder").join("examples/crash");
    let run = Command::new(&program).output();
    let run = run.expect("cargo test builds the examples, as cargo build --examples does");
    let expected = "\
4 calls restored. The log ends inside the record at byte 189.
5 calls restored. The log ends at byte 290, behind a whole record.
ZT: N R 10.01 x 3
";
    assert_eq!(String::from_utf8_lossy(&run.stderr), "");
    assert_eq!(String::from_utf8_lossy(&run.stdout), expected);
    assert!(run.status.success());
}
