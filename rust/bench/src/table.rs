//! The tables that the benchmark prints, in the form that docs/PERFORMANCE.md takes them.

use std::fs;

use crate::convert;
use crate::library::Library;
use crate::measure::{self, Latency, Throughput, NAMES};
use crate::query;
use crate::replay::{Outcome, KINDS};
use crate::stream::{Kind, Size, Stream};
use second::{Engine, Incremental};

/// A stream that is measured: what it is called, its n, and how it is made.
pub type Row = (&'static str, usize, Kind, Size);

/// Mixed messages: growth with n and with the blocks.
pub const MIXED: [Row; 9] = [
    ("full blocks", 1, Kind::Mixed, Size::Full),
    ("full blocks", 8, Kind::Mixed, Size::Full),
    ("full blocks", 64, Kind::Mixed, Size::Full),
    ("1 to 45 drawn", 1, Kind::Mixed, Size::Drawn),
    ("1 to 45 drawn", 8, Kind::Mixed, Size::Drawn),
    ("1 to 45 drawn", 64, Kind::Mixed, Size::Drawn),
    ("single messages", 1, Kind::Mixed, Size::Fixed(1)),
    ("single messages", 8, Kind::Mixed, Size::Fixed(1)),
    ("single messages", 64, Kind::Mixed, Size::Fixed(1)),
];

/// Messages of one length, 64 symbols: growth with the messages a block. 15, 26 and 45 are the most
/// that fit.
pub const FIXED: [Row; 6] = [
    ("quotes of 60 bytes", 64, Kind::Quotes, Size::Fixed(1)),
    ("quotes of 60 bytes", 64, Kind::Quotes, Size::Fixed(4)),
    ("quotes of 60 bytes", 64, Kind::Quotes, Size::Fixed(15)),
    ("clears of 36 bytes", 64, Kind::Clears, Size::Fixed(1)),
    ("clears of 36 bytes", 64, Kind::Clears, Size::Fixed(26)),
    ("cut to 20 bytes, code 42", 64, Kind::Cut, Size::Fixed(45)),
];

/// Every table.
pub fn print_all(messages: usize, rounds: usize) -> Result<(), String> {
    println!("CPU: {}", processor());
    println!("{messages} messages a round, {rounds} rounds on each book in turn.");
    println!("Nanoseconds a message, and ratios: of the middle rounds (of the fastest ones).");
    println!();
    let last = print_throughput(&MIXED, messages, rounds)?;
    println!();
    print_shares(&last);
    println!();
    print_throughput(&FIXED, messages, rounds)?;
    println!();
    print_latency(messages, rounds)?;
    println!();
    print_kinds(messages, rounds);
    println!();
    query::print(10 * rounds);
    println!();
    convert::print(10 * rounds);
    println!();
    print_memory();
    Ok(())
}

/// The full blocks of 64 symbols alone.
pub fn print_quick(messages: usize, rounds: usize) -> Result<(), String> {
    println!("CPU: {}", processor());
    print_throughput(&MIXED[2..3], messages, rounds).map(|_| ())
}

/// A row for each stream; answers what the last one came to.
fn print_throughput(rows: &[Row], messages: usize, rounds: usize) -> Result<Outcome, String> {
    let [library, engine, incremental] = NAMES;
    println!("| messages | n | a block | bytes a block | {library} | {engine} | {incremental} | {library} / {engine} | {library} / {incremental} | {library}, million a second |");
    println!("|---|---|---|---|---|---|---|---|---|---|");
    let mut last = Outcome::default();
    for &(name, n, kind, size) in rows {
        let stream = Stream::new(n, kind, size, messages);
        let (throughput, outcome) = Throughput::measure(&stream, rounds)?;
        let Throughput { middle, fastest } = throughput;
        let times = [0, 1, 2].map(|book| format!("{:.0} ({:.0})", middle[book], fastest[book]));
        let ratios = [1, 2].map(|book| {
            let [middle, fastest] = [middle, fastest].map(|times| times[0] / times[book]);
            format!("{middle:.2} ({fastest:.2})")
        });
        println!(
            "| {name} | {n} | {:.1} | {:.0} | {} | {} | {:.1} |",
            stream.messages_a_block(),
            stream.bytes_a_block(),
            times.join(" | "),
            ratios.join(" | "),
            1_000.0 / middle[0],
        );
        last = outcome;
    }
    Ok(last)
}

/// What became of the messages of a stream.
fn print_shares(outcome: &Outcome) {
    let all: u64 = outcome.messages.iter().sum();
    let percent = |part: u64| format!("{:.1} %", 100.0 * part as f64 / all as f64);
    let [accepted, partly, rejected] = outcome.messages.map(percent);
    let [national, finra, odd] = outcome.changing.map(percent);
    println!(
        "Of the last row's messages {accepted} are accepted, {partly} partly, {rejected} rejected;"
    );
    println!("{national} change a national entry, {finra} a FINRA entry, {odd} an odd entry.");
}

fn print_latency(messages: usize, rounds: usize) -> Result<(), String> {
    println!("| single-message call, ns | n | p50 | p99 | p99.9 |");
    println!("|---|---|---|---|---|");
    let mut clocks = Vec::new();
    for n in [1, 8, 64] {
        let stream = Stream::new(n, Kind::Mixed, Size::Fixed(1), messages);
        let latency = Latency::measure(&stream, rounds)?;
        for (name, parts) in NAMES.iter().zip(latency.books) {
            let parts = parts.map(|part| format!("{part:.0}"));
            println!("| {name} | {n} | {} |", parts.join(" | "));
        }
        clocks.push(latency.clock.to_string());
    }
    println!();
    println!(
        "Subtracted: the clock's own cost, {} ns before these three streams.",
        clocks.join(", ")
    );
    Ok(())
}

/// Single messages of 64 symbols on the library, by kind.
fn print_kinds(messages: usize, rounds: usize) {
    println!("| library, n = 64, ns a call | changes no entry | changes one |");
    println!("|---|---|---|");
    let stream = Stream::new(64, Kind::Mixed, Size::Fixed(1), messages);
    for (name, sums) in KINDS.iter().zip(measure::by_kind(&stream, rounds)) {
        let [same, changed] = sums.map(|(count, mean)| format!("{mean:.0} ({count} calls)"));
        println!("| {name} | {same} | {changed} |");
    }
}

fn print_memory() {
    println!("| bytes of a book | n = 1 | n = 8 | n = 64 |");
    println!("|---|---|---|---|");
    let books = [
        ("library", [1, 8, 64].map(|n| Library::fresh(n).memory())),
        ("Engine", [1, 8, 64].map(Engine::memory)),
        ("Incremental", [1, 8, 64].map(Incremental::memory)),
    ];
    for (name, bytes) in books {
        let bytes = bytes.map(|bytes| bytes.to_string());
        println!("| {name} | {} |", bytes.join(" | "));
    }
}

/// The processor's model, as the system names it.
pub fn processor() -> String {
    let text = fs::read_to_string("/proc/cpuinfo").unwrap_or_default();
    let model = text.lines().find(|line| line.starts_with("model name"));
    let name = model.and_then(|line| line.split(": ").nth(1));
    name.unwrap_or("unknown").to_string()
}

#[cfg(test)]
mod tests {
    use super::*;

    #[test]
    fn all_books_agree_on_every_stream() {
        for &(name, n, kind, size) in MIXED.iter().chain(&FIXED) {
            let stream = Stream::new(n, kind, size, 2_000);
            let measured = Throughput::measure(&stream, 1);
            assert!(measured.is_ok(), "{name}, n = {n}: {:?}", measured.err());
        }
    }

    #[test]
    fn blocks_carry_what_their_rows_say() {
        for &(name, n, kind, size) in &FIXED {
            let Size::Fixed(count) = size else { continue };
            let stream = Stream::new(n, kind, size, 2_000);
            assert_eq!(stream.messages(), count * stream.blocks(), "{name}");
        }
    }

    #[test]
    fn every_accepted_message_is_of_a_kind() {
        let stream = Stream::new(8, Kind::Mixed, Size::Fixed(1), 2_000);
        let (_, outcome) = Throughput::measure(&stream, 1).expect("all books agree");
        let counts = measure::by_kind(&stream, 1).map(|kind| kind.map(|(count, _)| count as u64));
        assert!(counts.iter().flatten().all(|&count| count > 0));
        assert_eq!(counts.iter().flatten().sum::<u64>(), outcome.messages[0]);
    }

    #[test]
    fn mixed_messages_reach_every_entry_and_a_few_are_refused() {
        let stream = Stream::new(64, Kind::Mixed, Size::Full, 20_000);
        let (_, outcome) = Throughput::measure(&stream, 1).expect("all books agree");
        let all = stream.messages() as u64;
        assert!(outcome.changing.iter().all(|&part| part > all / 100));
        let [_, partly, rejected] = outcome.messages;
        assert!(partly > 0 && (all / 100..all / 20).contains(&rejected));
    }
}
