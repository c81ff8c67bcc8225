//! Random tapes, whole and damaged.
//!
//! The variables FIRST_SEED and TAPES of the environment choose other tapes or more of them.

mod common;

use common::*;
use second::generate::from_environment;
use tape::generate::{damaged, tape};

const BLOCKS: usize = 120;

#[test]
fn random_tapes() {
    let first = from_environment("FIRST_SEED", 0);
    let tapes = from_environment("TAPES", 600);
    let (mut blocks, mut messages) = (0, 0);
    for seed in first..first + tapes {
        let printed = agreed(&format!("seed {seed}"), &tape(seed, BLOCKS).bytes());
        blocks += printed.matches("block ").count();
        messages += printed.matches("msg ").count();
    }
    println!("{tapes} tapes from seed {first} on: {blocks} blocks, {messages} messages");
    assert!(blocks as u64 > 20 * tapes && messages as u64 > 40 * tapes);
}

#[test]
fn damaged_tapes() {
    let first = from_environment("FIRST_SEED", 0);
    let tapes = from_environment("TAPES", 600);
    let (mut cut, mut refused) = (0, 0);
    for seed in first..first + tapes {
        let bytes = damaged(seed, &tape(seed, BLOCKS / 4));
        let printed = agreed(&format!("damaged, seed {seed}"), &bytes);
        cut += u64::from(printed.ends_with("cut\n"));
        refused += u64::from(printed.starts_with("setup"));
    }
    println!(
        "{tapes} damaged tapes from seed {first} on: {cut} cut, {refused} with a refused setup"
    );
    assert!(cut > tapes / 10 && refused > tapes / 50);
}
