//! A shelf of books: nanoseconds a message with 64, 640 and 6,400 symbols, on one thread and on several,
//! beside one book; latencies of a call; FINRA Close; memory.

use std::collections::{BTreeMap, HashMap};
use std::fs;
use std::num::NonZeroUsize;
use std::time::Instant;

use crate::library::Library;
use crate::market::LETTERS;
use crate::replay::{clock_cost, timed, timed_calls, warm, Outcome, SLICE};
use crate::stream::{Kind, Size, Stream};
use crate::table::processor;
use quotebook::{Book, Number, Refusal};
use second::generate::Random;
use second::terms::ANSWER_LEN;
use second::{build, Engine, QuoteBook};
use shelf::{Shelf, ThreadedShelf};
use shelves::{number, OneThread, Threads};

#[allow(dead_code)]
#[path = "../../shelf/tests/support/shelves.rs"]
mod shelves;

/// Symbols listed, and how many of them are quoted.
const ROWS: [(usize, usize); 4] = [(64, 64), (640, 640), (6_400, 6_400), (6_400, 64)];

/// Shelves over books of the usual number of symbols.
type OneShelf = OneThread<0>;

pub fn print(messages: usize, rounds: usize) -> Result<(), String> {
    println!("CPU: {}", processor());
    println!("{messages} messages a round, {rounds} rounds. Nanoseconds a message: of the middle rounds (of the fastest ones).");
    println!();
    print_one_thread(messages, rounds)?;
    println!();
    print_direct(messages, rounds)?;
    println!();
    print_unlisted(messages, rounds)?;
    println!();
    print_threads(messages, rounds)?;
    println!();
    print_books_of(messages, rounds)?;
    println!();
    print_latency(messages, rounds);
    println!();
    print_finra(rounds)?;
    println!();
    print_memory()
}

/// Replays full blocks of 640 symbols on a shelf alone, for a profiler.
pub fn alone(messages: usize, rounds: usize) -> Result<(), String> {
    let stream = stream(640, 640, Size::Full, messages);
    let mut books = [round(OneShelf::fresh(640), &stream)];
    let cells = measure(&mut books, stream.messages(), rounds)?;
    println!("shelf: {} ns a message", cells.join(""));
    Ok(())
}

/// A stream that quotes so many of the listed symbols, which are then in any order.
fn stream(listed: usize, quoted: usize, size: Size, messages: usize) -> Stream {
    let mut stream = Stream::new(quoted, Kind::Mixed, size, messages);
    if listed > quoted {
        let others = (quoted..listed).map(|at| (build::symbol(&format!("O{at}")), 100));
        stream.symbols.extend(others);
        let mut random = Random::new(1);
        for at in (1..listed).rev() {
            stream.symbols.swap(at, random.below(at + 1));
        }
    }
    stream
}

fn set_up<B: QuoteBook>(mut book: B, stream: &Stream) -> B {
    stream.set_up(&mut book);
    book
}

/// The numbers of a slice in all rounds, from small to large.
fn sorted(rounds: &[Vec<u64>], slice: usize) -> Vec<u64> {
    let mut numbers: Vec<u64> = rounds.iter().map(|round| round[slice]).collect();
    numbers.sort_unstable();
    numbers
}

/// The middle and the least of some rounds, slice by slice, for each message.
fn middle_and_least(rounds: &[Vec<u64>], messages: usize) -> String {
    let slices = (0..rounds[0].len()).map(|slice| sorted(rounds, slice));
    let (middle, least) = slices.fold((0, 0), |(middle, least), numbers| {
        (middle + numbers[numbers.len() / 2], least + numbers[0])
    });
    let [middle, least] = [middle, least].map(|sum| sum as f64 / messages as f64);
    format!("{middle:.0} ({least:.0})")
}

type Round<'a> = Box<dyn FnMut(&mut Vec<u64>) -> Outcome + 'a>;

fn round<'a>(book: impl QuoteBook + 'a, stream: &'a Stream) -> Round<'a> {
    let mut book = set_up(book, stream);
    Box::new(move |slices| timed(&mut book, stream, slices))
}

/// Rounds on the books in turn, all of which have to come to the same.
fn measure(books: &mut [Round], messages: usize, rounds: usize) -> Result<Vec<String>, String> {
    let mut seen: Vec<Vec<Vec<u64>>> = books.iter().map(|_| Vec::new()).collect();
    let mut expected = None;
    for turn in 0..books.len() * rounds {
        let at = (turn + turn / books.len()) % books.len();
        let mut slices = Vec::new();
        let outcome = books[at](&mut slices);
        if *expected.get_or_insert_with(|| outcome.clone()) != outcome {
            return Err(format!("a round of book {at} left another outcome"));
        }
        seen[at].push(slices);
    }
    let cells = seen.iter().map(|seen| middle_and_least(seen, messages));
    Ok(cells.collect())
}

/// The books of a shelf without the shelf: every message is a block of its own, written beforehand for the
/// book that lists its symbol. What is measured is what the books take by themselves.
struct Direct {
    books: Vec<Book>,
    warming: Vec<Placed>,
    measured: Vec<Placed>,
}

/// A block for a book, on the line of its place among the letters.
struct Placed {
    book: usize,
    line: u32,
    block: Vec<u8>,
}

impl Direct {
    fn new(stream: &Stream) -> Result<Direct, Refusal> {
        let most = shelf::SYMBOLS_A_BOOK as usize;
        let count = stream.symbols.len().div_ceil(most);
        let mut books = Vec::new();
        let mut places = HashMap::new();
        for _ in 0..count {
            let mut book = Book::new(most as u32)?;
            for (line, &letter) in (0..).zip(&LETTERS) {
                book.open_line(line, letter)?;
            }
            books.push(book);
        }
        for (at, (symbol, round_lot)) in stream.symbols.iter().enumerate() {
            books[at % count].add_symbol(symbol, *round_lot, b'N')?;
            places.insert(*symbol, at % count);
        }
        let mut expected = vec![[1; LETTERS.len()]; count];
        let mut place = |(line, block): (u32, &[u8])| {
            // The shelf stops messages of unknown symbols and of other letters; the symbol is at 20.
            let message = &block[12..];
            let symbol = message.get(20..31)?;
            let book = *places.get(symbol)?;
            let number = &mut expected[book][line as usize];
            *number += 1;
            let block = build::block(*number - 1, &[message.to_vec()]);
            Some(Placed { book, line, block })
        };
        Ok(Direct {
            warming: stream
                .warming()
                .flat_map(single)
                .filter_map(|(line, block)| place((line, &block)))
                .collect(),
            measured: stream.measured().filter_map(&mut place).collect(),
            books,
        })
    }

    /// The nanoseconds of each slice of a round.
    fn round(&mut self) -> Vec<u64> {
        let mut answer = [0; ANSWER_LEN];
        for book in &mut self.books {
            let _ = book.end_day();
            assert_eq!(number(book.start_day()), 0, "the day starts");
        }
        for Placed { book, line, block } in &self.warming {
            self.books[*book].take_block_into(*line, block, &mut answer);
        }
        let slices = self.measured.chunks(SLICE).map(|slice| {
            let began = Instant::now();
            for Placed { book, line, block } in slice {
                let report = self.books[*book].take_block_into(*line, block, &mut answer);
                assert_eq!(report.number, Number::Done, "a block is taken");
            }
            began.elapsed().as_nanos() as u64
        });
        slices.collect()
    }
}

/// The messages of a block as blocks of their own.
fn single((line, block): (u32, &[u8])) -> Vec<(u32, Vec<u8>)> {
    let messages = build::split(block).map_or(Vec::new(), |(_, messages)| messages);
    let alone = messages
        .into_iter()
        .map(|message| build::block(1, &[message]));
    alone.map(|block| (line, block)).collect()
}

/// Single messages given to the books directly.
fn print_direct(messages: usize, rounds: usize) -> Result<(), String> {
    println!("| listed | quoted | single messages, each given to its book directly |");
    println!("|---|---|---|");
    for (listed, quoted) in ROWS {
        let stream = stream(listed, quoted, Size::Fixed(1), messages);
        let mut direct = Direct::new(&stream).map_err(|refusal| refusal.to_string())?;
        let rounds: Vec<Vec<u64>> = (0..rounds).map(|_| direct.round()).collect();
        let cell = middle_and_least(&rounds, direct.measured.len());
        println!("| {listed} | {quoted} | {cell} |");
    }
    Ok(())
}

fn print_one_thread(messages: usize, rounds: usize) -> Result<(), String> {
    println!("| messages a block | listed | quoted | one book | shelf | Engine, one large book |");
    println!("|---|---|---|---|---|---|");
    for size in [Size::Full, Size::Fixed(1)] {
        for (listed, quoted) in ROWS {
            let stream = stream(listed, quoted, size, messages);
            let n = listed as u32;
            let mut books = vec![
                round(OneShelf::fresh(n), &stream),
                round(Engine::large(n), &stream),
            ];
            if n <= 64 {
                books.insert(0, round(Library::fresh(n), &stream));
            }
            let mut cells = measure(&mut books, stream.messages(), rounds)?;
            if n > 64 {
                cells.insert(0, String::new());
            }
            let a_block = stream.messages_a_block();
            println!(
                "| {a_block:.1} | {listed} | {quoted} | {} |",
                cells.join(" | ")
            );
        }
    }
    Ok(())
}

/// Messages of symbols that a shelf does not list, as it hears them where the symbols are divided over
/// several shelves.
fn print_unlisted(messages: usize, rounds: usize) -> Result<(), String> {
    println!("| messages a block | none of the quoted symbols is among the listed | shelf |");
    println!("|---|---|---|");
    for size in [Size::Full, Size::Fixed(1)] {
        let mut stream = stream(6_400, 64, size, messages);
        stream
            .symbols
            .retain(|(symbol, _)| symbol[0] == b'O' && !symbol.contains(&b'.'));
        let n = stream.symbols.len() as u32;
        let mut books = [round(OneShelf::fresh(n), &stream)];
        let cells = measure(&mut books, stream.messages(), rounds)?;
        let a_block = stream.messages_a_block();
        println!("| {a_block:.1} | {n} | {} |", cells.join(" | "));
    }
    Ok(())
}

/// The nanoseconds that each thread of this program has been on a processor.
fn processor_times() -> BTreeMap<String, u64> {
    let tasks = fs::read_dir("/proc/self/task").into_iter().flatten();
    let times = tasks.flatten().filter_map(|task| {
        let told = fs::read_to_string(task.path().join("schedstat")).ok()?;
        let time = told.split_whitespace().next()?.parse().ok()?;
        Some((task.file_name().to_string_lossy().into_owned(), time))
    });
    times.collect()
}

/// Submits a stream's blocks and asks for all answers.
fn replay<'a>(shelf: &mut ThreadedShelf, blocks: impl Iterator<Item = (u32, &'a [u8])>) {
    for (line, block) in blocks {
        shelf.submit(line, block);
    }
    while shelf.next_answer().is_some() {}
}

/// Blocks that are submitted without waiting: the time that passes, what the thread that feeds is on a
/// processor, and what the busiest of the others is.
fn threads(shelf: Shelf, stream: &Stream, own: bool, others: usize, rounds: usize) -> [String; 3] {
    let others = NonZeroUsize::new(others).expect("one or more");
    let mut shelf = match own {
        true => shelf.spread_beside(others),
        false => shelf.spread(others),
    };
    let feeder = std::process::id().to_string();
    let mut seen: [Vec<Vec<u64>>; 3] = Default::default();
    for _ in 0..rounds {
        let _ = shelf.end_day();
        assert_eq!(number(shelf.start_day()), 0, "the day starts");
        replay(&mut shelf, stream.warming());
        let (before, began) = (processor_times(), Instant::now());
        replay(&mut shelf, stream.measured());
        let passed = began.elapsed().as_nanos() as u64;
        let after = processor_times();
        let on_processor = |id: &String| {
            let before = before.get(id).unwrap_or(&0);
            after.get(id).map_or(0, |after| after - before)
        };
        let busiest = after.keys().filter(|&id| *id != feeder).map(on_processor);
        let busiest = busiest.max().unwrap_or(0);
        for (seen, time) in seen
            .iter_mut()
            .zip([passed, on_processor(&feeder), busiest])
        {
            seen.push(vec![time]);
        }
    }
    seen.map(|rounds| middle_and_least(&rounds, stream.messages()))
}

fn print_threads(messages: usize, rounds: usize) -> Result<(), String> {
    println!("| threads, full blocks | listed | quoted | passed | feeding thread on a processor | busiest other thread |");
    println!("|---|---|---|---|---|---|");
    for (listed, quoted) in ROWS {
        let stream = stream(listed, quoted, Size::Full, messages);
        let layouts = [
            ("one feeds, one works", false, 1),
            ("one feeds and works, one works", true, 1),
            ("one feeds, two work", false, 2),
        ];
        for (name, own, others) in layouts {
            // Also the 64 symbols over more than one book.
            let shelf = Shelf::with_books_of(shelf::SYMBOLS_A_BOOK, listed);
            let shelf = shelf.map_err(|refusal| refusal.to_string())?;
            let mut book = OneShelf::fresh(1);
            book.shelf = shelf;
            let shelf = set_up(book, &stream).shelf;
            let cells = threads(shelf, &stream, own, others, rounds);
            println!("| {name} | {listed} | {quoted} | {} |", cells.join(" | "));
        }
    }
    Ok(())
}

fn print_books_of(messages: usize, rounds: usize) -> Result<(), String> {
    println!("| listed | quoted | books of 1 | of 4 | of 8 | of 16 | of 32 | of 64 |");
    println!("|---|---|---|---|---|---|---|---|");
    for (listed, quoted) in ROWS {
        let stream = stream(listed, quoted, Size::Full, messages);
        let n = listed as u32;
        let mut books = vec![
            round(OneThread::<1>::fresh(n), &stream),
            round(OneThread::<4>::fresh(n), &stream),
            round(OneThread::<8>::fresh(n), &stream),
            round(OneThread::<16>::fresh(n), &stream),
            round(OneThread::<32>::fresh(n), &stream),
            round(OneThread::<64>::fresh(n), &stream),
        ];
        let cells = measure(&mut books, stream.messages(), rounds)?;
        println!("| {listed} | {quoted} | {} |", cells.join(" | "));
    }
    Ok(())
}

/// Calls of blocks with one message, each timed alone: the middle of the rounds.
fn print_latency(messages: usize, rounds: usize) {
    println!("| one call of one message, ns | listed | quoted | p50 | p99 | p99.9 |");
    println!("|---|---|---|---|---|---|");
    for (listed, quoted) in ROWS {
        let stream = stream(listed, quoted, Size::Fixed(1), messages);
        let n = listed as u32;
        let print = |name: &str, [p50, p99, p999]: [u64; 3]| {
            println!("| {name} | {listed} | {quoted} | {p50} | {p99} | {p999} |");
        };
        if n <= 64 {
            print("one book", calls(Library::fresh(n), &stream, rounds));
        }
        print("shelf", calls(OneShelf::fresh(n), &stream, rounds));
        let large = calls(Engine::large(n), &stream, rounds);
        print("Engine, one large book", large);
        if listed == quoted {
            let threads = calls(Threads::<0, 1>::fresh(n), &stream, 3);
            print("shelf on two threads, each block waited for", threads);
        }
    }
}

fn calls(book: impl QuoteBook, stream: &Stream, rounds: usize) -> [u64; 3] {
    let mut book = set_up(book, stream);
    let clock = clock_cost();
    let mut seen = Vec::new();
    let mut calls = Vec::new();
    for _ in 0..rounds {
        timed_calls(&mut book, stream, &mut calls);
        calls.sort_unstable();
        let part =
            |of_thousand: usize| calls[calls.len() * of_thousand / 1_000].saturating_sub(clock);
        seen.push([500, 990, 999].map(part).to_vec());
    }
    [0, 1, 2].map(|part| sorted(&seen, part)[rounds / 2])
}

/// FINRA Close and Open go to every book and work out every page.
fn print_finra(rounds: usize) -> Result<(), String> {
    println!("| FINRA Close or Open: listed | quoted | microseconds |");
    println!("|---|---|---|");
    for (listed, quoted) in ROWS {
        let stream = stream(listed, quoted, Size::Full, 1_000);
        let mut book = set_up(OneShelf::fresh(listed as u32), &stream);
        assert_eq!(book.open_line(63, b'D'), 0, "a line is opened");
        warm(&mut book, &stream);
        let mut times = Vec::new();
        for (at, kind) in (1..=2 * rounds as u32).zip(b"CO".iter().cycle()) {
            let block = build::block(at, &[build::header(b'C', *kind, b'D', 1)]);
            let began = Instant::now();
            let taken = book.shelf.take_block(63, &block);
            times.push(began.elapsed().as_nanos() as u64);
            taken.map_err(|refusal| refusal.to_string())?;
        }
        times.sort_unstable();
        let middle = times[times.len() / 2] as f64 / 1_000.0;
        println!("| {listed} | {quoted} | {middle:.0} |");
    }
    Ok(())
}

fn print_memory() -> Result<(), String> {
    println!("| symbols | books | bytes | a symbol |");
    println!("|---|---|---|---|");
    for n in [64, 640, 6_400, 11_000] {
        let shelf = Shelf::new(n).map_err(|refusal| refusal.to_string())?;
        let bytes = shelf.memory();
        println!("| {n} | {} | {bytes} | {} |", shelf.books(), bytes / n);
    }
    Ok(())
}
