//! The benchmark: the proved library and the second implementation side by side, in one run.
//!
//! Without arguments it prints all tables. `--quick` measures the full blocks of 64 symbols only,
//! `--queries` the queries, `--conversions` the conversions of venues' blocks, `--allowance` blocks with
//! an allowance and without, `--log BLOCKS` logs of calls, the last of them of so many blocks, `--shelf` shelves of books.
//! `--library N`, `--engine N` and `--incremental N` replay these blocks N times on one book alone,
//! for a profiler, and `--shelf N` those of 640 symbols on a shelf; `--single` before them takes single-message blocks.

#![forbid(unsafe_code)]

mod allowance;
mod convert;
mod library;
mod log;
mod market;
mod measure;
mod query;
mod replay;
mod scale;
mod stream;
mod table;

use std::process::ExitCode;

use stream::{Kind, Size, Stream};

/// Messages of a stream.
const MESSAGES: usize = 20_000;
/// Rounds on each book.
const ROUNDS: usize = 31;

fn main() -> ExitCode {
    let arguments: Vec<String> = std::env::args().skip(1).collect();
    let words: Vec<&str> = arguments.iter().map(String::as_str).collect();
    let done = match words[..] {
        [] => table::print_all(MESSAGES, ROUNDS),
        ["--quick"] => table::print_quick(MESSAGES, ROUNDS),
        ["--queries"] => {
            query::print(10 * ROUNDS);
            Ok(())
        }
        ["--conversions"] => {
            convert::print(10 * ROUNDS);
            Ok(())
        }
        ["--allowance"] => {
            allowance::print(10 * ROUNDS);
            Ok(())
        }
        ["--log", blocks] => match blocks.parse() {
            Ok(blocks) => log::print(MESSAGES, 2 * ROUNDS, blocks),
            Err(_) => Err("how many blocks?".to_string()),
        },
        ["--shelf"] => scale::print(MESSAGES, 11),
        ["--shelf", rounds] => scale::alone(10 * MESSAGES, rounds.parse().unwrap_or(1)),
        ["--single", book, times] => alone(Size::Fixed(1), book, times),
        [book, times] => alone(Size::Full, book, times),
        _ => Err(
            "arguments: none, --quick, --queries, --conversions, --allowance, --log BLOCKS, --shelf, or [--single] --library N"
                .to_string(),
        ),
    };
    match done {
        Ok(()) => ExitCode::SUCCESS,
        Err(why) => {
            eprintln!("{why}");
            ExitCode::FAILURE
        }
    }
}

/// Replays the 64 symbols' stream on one book.
fn alone(size: Size, book: &str, times: &str) -> Result<(), String> {
    let times = times.parse().ok().filter(|&times| times > 0);
    let times = times.ok_or("how many times?")?;
    let name = book.trim_start_matches("--");
    let stream = Stream::new(64, Kind::Mixed, size, MESSAGES);
    let nanoseconds = measure::replay_alone(name, &stream, times).ok_or("which book?")?;
    println!("{name}: {nanoseconds:.1} ns a message, the middle of {times} replays");
    Ok(())
}
