//! Interleaved rounds on the three books, and what they give.

use crate::library::Library;
use crate::replay::{checked, clock_cost, timed, timed_calls, told_calls, Outcome, KINDS};
use crate::stream::Stream;
use second::{Engine, Incremental, QuoteBook};

/// The library, the engine and the incremental engine, set up alike.
pub struct Books {
    library: Library,
    engine: Engine,
    incremental: Incremental,
}

/// The books' names, in the order of every result.
pub const NAMES: [&str; 3] = ["library", "Engine", "Incremental"];

impl Books {
    /// Fresh books with the stream's symbols and lines.
    pub fn new(stream: &Stream) -> Books {
        let n = stream.symbols.len() as u32;
        let mut books = Books {
            library: Library::fresh(n),
            engine: Engine::fresh(n).expect("n is 1 to 64"),
            incremental: Incremental::fresh(n).expect("n is 1 to 64"),
        };
        stream.set_up(&mut books.library);
        stream.set_up(&mut books.engine);
        stream.set_up(&mut books.incremental);
        books
    }

    /// The day on all three, every answer compared.
    pub fn check(&mut self, stream: &Stream) -> Result<Outcome, String> {
        checked(
            &mut self.library,
            &mut self.engine,
            &mut self.incremental,
            stream,
        )
    }
}

/// Nanoseconds a message of each book.
pub struct Throughput {
    /// Each slice in its middle round.
    pub middle: [f64; 3],
    /// Each slice in its fastest round.
    pub fastest: [f64; 3],
}

impl Throughput {
    /// So many rounds on each book in turn, the first of them another book each time. A round that
    /// leaves another outcome than the check fails.
    pub fn measure(stream: &Stream, rounds: usize) -> Result<(Throughput, Outcome), String> {
        let mut books = Books::new(stream);
        let expected = books.check(stream)?;
        let mut seen: [Vec<Vec<u64>>; 3] = Default::default();
        for turn in 0..3 * rounds {
            let book = (turn + turn / 3) % 3;
            let mut slices = Vec::new();
            let outcome = match book {
                0 => timed(&mut books.library, stream, &mut slices),
                1 => timed(&mut books.engine, stream, &mut slices),
                _ => timed(&mut books.incremental, stream, &mut slices),
            };
            same(&outcome, &expected, NAMES[book])?;
            seen[book].push(slices);
        }
        let messages = stream.messages() as f64;
        let [middle, fastest] = [rounds / 2, 0].map(|round| {
            let sums = [0, 1, 2].map(|book| sum_of_slices(&seen[book], round));
            sums.map(|sum| sum as f64 / messages)
        });
        Ok((Throughput { middle, fastest }, expected))
    }
}

/// The sum over all slices, each of the round that stands in this place when its rounds are sorted.
fn sum_of_slices(rounds: &[Vec<u64>], place: usize) -> u64 {
    let slices = rounds.first().map_or(0, Vec::len);
    let in_order = (0..slices).map(|slice| {
        let mut times: Vec<u64> = rounds.iter().map(|round| round[slice]).collect();
        times.sort_unstable();
        times[place]
    });
    in_order.sum()
}

fn same(outcome: &Outcome, expected: &Outcome, name: &str) -> Result<(), String> {
    if outcome.messages == expected.messages && outcome.publications == expected.publications {
        Ok(())
    } else {
        Err(format!("a round of {name} left another outcome"))
    }
}

fn median(mut values: Vec<f64>) -> f64 {
    values.sort_by(f64::total_cmp);
    values[values.len() / 2]
}

/// The parts of a thousand calls that latencies are given for.
pub const PARTS: [usize; 3] = [500, 990, 999];

/// Latencies of each book in nanoseconds, one for each of [`PARTS`], the clock's own cost
/// subtracted.
pub struct Latency {
    pub clock: u64,
    pub books: [[f64; PARTS.len()]; 3],
}

impl Latency {
    /// So many rounds on each book in turn; of each part the middle round.
    pub fn measure(stream: &Stream, rounds: usize) -> Result<Latency, String> {
        let mut books = Books::new(stream);
        let expected = books.check(stream)?;
        let clock = clock_cost();
        let mut seen: [[Vec<f64>; PARTS.len()]; 3] = Default::default();
        let mut calls = Vec::new();
        for turn in 0..3 * rounds {
            let book = (turn + turn / 3) % 3;
            let outcome = match book {
                0 => timed_calls(&mut books.library, stream, &mut calls),
                1 => timed_calls(&mut books.engine, stream, &mut calls),
                _ => timed_calls(&mut books.incremental, stream, &mut calls),
            };
            same(&outcome, &expected, NAMES[book])?;
            calls.sort_unstable();
            for (part, to) in PARTS.iter().zip(&mut seen[book]) {
                let call = calls[calls.len() * part / 1_000];
                to.push(call.saturating_sub(clock) as f64);
            }
        }
        Ok(Latency {
            clock,
            books: seen.map(|parts| parts.map(median)),
        })
    }
}

/// For each of [`KINDS`], accepted messages that change no entry and those that change one: how many
/// there are, and the library's nanoseconds a call, each call in its fastest round, the clock's own
/// cost subtracted.
pub fn by_kind(stream: &Stream, rounds: usize) -> [[(usize, f64); 2]; KINDS.len()] {
    let mut library = Books::new(stream).library;
    let told = told_calls(&mut library, stream);
    let clock = clock_cost();
    let mut fastest = vec![u64::MAX; told.len()];
    let mut calls = Vec::new();
    for _ in 0..rounds {
        timed_calls(&mut library, stream, &mut calls);
        for (best, &call) in fastest.iter_mut().zip(&calls) {
            *best = call.min(*best);
        }
    }
    let mut sums = [[(0, 0.0); 2]; KINDS.len()];
    for (&call, told) in fastest.iter().zip(told) {
        if let Some((kind, changes)) = told {
            let (count, sum) = &mut sums[kind][usize::from(changes)];
            *count += 1;
            *sum += call.saturating_sub(clock) as f64;
        }
    }
    sums.map(|kind| kind.map(|(count, sum)| (count, sum / count as f64)))
}

/// Replays a stream on one book alone, for a profiler, and gives its nanoseconds a message.
pub fn replay_alone(name: &str, stream: &Stream, times: usize) -> Option<f64> {
    let Books {
        mut library,
        mut engine,
        mut incremental,
    } = Books::new(stream);
    let took = match name {
        "library" => alone(&mut library, stream, times),
        "engine" => alone(&mut engine, stream, times),
        "incremental" => alone(&mut incremental, stream, times),
        _ => return None,
    };
    Some(took)
}

fn alone(book: &mut impl QuoteBook, stream: &Stream, times: usize) -> f64 {
    let mut rounds = vec![Vec::new(); times];
    for slices in &mut rounds {
        timed(book, stream, slices);
    }
    sum_of_slices(&rounds, times / 2) as f64 / stream.messages() as f64
}
