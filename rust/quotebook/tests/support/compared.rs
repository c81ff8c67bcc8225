//! One random list of calls on the library, the engine and the reviewer, and random calls of the
//! writer.

use second::compare::{compare, first_difference, observe, Fresh};
use second::coverage::Coverage;
use second::generate::Random;
use second::shrink::shrink;
use second::writer::{mistake, reached::Reached, write};
use second::{generate, List};

use super::guarded::broken;
use super::{engine, library, reviewer, writing};

/// Calls in a list. The reviewer works every answer out anew from its history, so that its time
/// rises with the square of a list's length.
pub const CALLS: usize = 200;

/// Runs the list of a seed. After every call number, report, every byte of and around the buffer,
/// all publications and all lines' records are equal. What the list reaches is noted. A failure is
/// told with a short list of calls that reproduces it.
pub fn run(seed: u64, coverage: &mut Coverage) -> Result<(), String> {
    let list = generate::list(seed, CALLS);
    let expected = observe(reviewer, &list);
    coverage.note(&list, &expected);
    for (name, fresh) in [("library", library as Fresh), ("engine", engine)] {
        if first_difference(&expected, fresh, &list).is_some() {
            return Err(failure(seed, name, fresh, &list));
        }
    }
    Ok(())
}

/// The seed, a short list that reproduces the failure, and the difference that it shows.
fn failure(seed: u64, name: &str, fresh: Fresh, list: &List) -> String {
    let short = shrink(list, |list| compare(reviewer, fresh, list).is_some());
    let difference = compare(reviewer, fresh, &short).expect("a shrunk list still fails");
    let number = difference.observed.number;
    let said = broken::TABLE.iter().find(|row| row.0 == number);
    let said = said.map_or(String::new(), |(number, what)| {
        format!("{number}: {what}\n")
    });
    format!("seed {seed}: the {name} differs from the reviewer on\n{short}{difference}{said}")
}

/// Calls of the writer for each seed.
pub const WRITINGS: usize = 100;

/// Runs a seed's calls of the writer. Number, length and every byte of and around the output are
/// equal.
pub fn write_calls(seed: u64, reached: &mut Reached) -> Result<(), String> {
    let mut random = Random::new(seed);
    for _ in 0..WRITINGS {
        let call = generate::writing(&mut random);
        let expected = call.run(write::<{ mistake::NONE }>);
        let observed = call.run(writing::library);
        if observed != expected {
            let (told, awaited) = (observed.0, expected.0);
            return Err(format!(
                "seed {seed}: the library writes {told:?}, the second implementation {awaited:?}, \
                 for {call:?}"
            ));
        }
        reached.note(&call, expected.0);
    }
    Ok(())
}
