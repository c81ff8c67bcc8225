//! The log of calls (docs/LOG.md): the library's replay and restore, and the readers of this crate,
//! beside a reading of the second implementation's. The logs are of random calls, whole, damaged or cut;
//! one is cut at every byte; others are random bytes.

mod support;

use std::io::{Cursor, Read};

use quotebook::log::{self, Answers, Head, LogReader, Record, Records, Stop};
use quotebook::{lent, Book, Number};
use second::generate::{self, from_environment, Random};
use second::log::{
    damaged, log_of, mistake, next, read_head, replay, restore, small, Next, Reached, Replayed,
    HEAD_LEN,
};
use second::{Call, Engine, QuoteBook};
use support::guarded::{Fenced, Guarded};

const LOGS: u64 = 1_500;
const CALLS: usize = 40;
/// Longer than every answer.
const ROOMY: usize = 5000;

/// A log to restore from, and then to replay again from a place on.
struct Case {
    /// The symbols of the book that is lent, and the calls that have used it.
    n: u32,
    used: Vec<Call>,
    log: Vec<u8>,
    from: usize,
    /// The length of the output.
    room: usize,
}

impl Case {
    fn of(seed: u64) -> Case {
        let mut random = Random::new(seed);
        let list = generate::list(seed, CALLS);
        let log = log_of(&mut random, &list);
        let log = damaged(&mut random, log);
        let froms = [HEAD_LEN, log.len(), log.len() + 1, random.below(40)];
        Case {
            n: list.n,
            used: list.calls[..random.below(CALLS)].to_vec(),
            from: random.pick(&froms),
            room: random.usually(
                70,
                &[ROOMY, 20_000, 1 << 17],
                &[0, 3600, 3695, 3696, 3697, 3792],
            ),
            log,
        }
    }

    /// A case of any log, on a book that is not used.
    fn plain(log: Vec<u8>) -> Case {
        Case {
            n: 1,
            used: Vec::new(),
            log,
            from: HEAD_LEN,
            room: ROOMY,
        }
    }
}

/// What is told in the end, and at each stop for want of room before.
type Told = Vec<(usize, Replayed)>;

/// Restores, goes on while there was no room and there may be some, then replays from a place.
fn run(case: &Case, mut call: impl FnMut(Option<usize>) -> Replayed) -> Told {
    let mut told = vec![(HEAD_LEN, call(None))];
    for from in [None, Some(case.from)] {
        let mut from = from.unwrap_or(told[0].1.place);
        let mut number = if from == case.from {
            93
        } else {
            told[0].1.number
        };
        while number == 93 {
            let replayed = call(Some(from));
            number = if replayed.place > from {
                replayed.number
            } else {
                0
            };
            told.push((from, replayed.clone()));
            from = replayed.place;
        }
    }
    told
}

fn second<const M: u8>(case: &Case) -> (Told, Engine) {
    let mut book = Engine::fresh(case.n).expect("n is 1 to 64");
    second::mixing::make_calls(&mut book, &case.used);
    let told = run(case, |from| match from {
        None => restore::<M>(&mut book, &case.log, case.room),
        Some(from) => replay::<M>(&mut book, &case.log, from, case.room),
    });
    (told, book)
}

/// The library's answers; every byte of and around what it was lent is as it should be.
fn library(case: &Case) -> (Told, Vec<u8>) {
    let mut book = Guarded::fresh(case.n);
    second::mixing::make_calls(&mut book, &case.used);
    let before = book.bytes().to_vec();
    let mut book = Fenced::new(&before);
    let log = Fenced::new(&case.log);
    let told = run(case, |from| {
        let pattern: Vec<u8> = (0..case.room).map(|at| 0xA5 ^ at as u8).collect();
        let mut output = Fenced::new(&pattern);
        let told = match from {
            None => lent::restore(book.bytes_mut(), log.bytes(), output.bytes_mut()),
            Some(from) => lent::replay(book.bytes_mut(), log.bytes(), from, output.bytes_mut()),
        };
        assert!(book.stands() && log.keeps(&case.log) && output.stands());
        let (answers, behind) = output.bytes().split_at(told.written);
        assert_eq!(behind, &pattern[told.written..]);
        if matches!(told.number, Number::LogHead | Number::Make) {
            assert!(book.bytes() == before);
        }
        Replayed {
            number: u8::from(told.number),
            place: told.place,
            answers: answers.to_vec(),
        }
    });
    (told, book.bytes().to_vec())
}

/// The library's book after the calls themselves, as the second implementation reads them.
fn direct(case: &Case, told: &Told) -> Vec<u8> {
    let mut book = Guarded::fresh(case.n);
    second::mixing::make_calls(&mut book, &case.used);
    let (_, restored) = &told[0];
    if !matches!(restored.number, 90 | 2) {
        assert_eq!(book.make(case.n), 0);
    }
    for (from, replayed) in told {
        let mut at = *from;
        while let (true, Next::Call(call, _, next)) = (
            at < replayed.place,
            next::<{ mistake::NONE }>(&case.log, at),
        ) {
            second::mixing::make_calls(&mut book, &[with_room(call)]);
            at = next;
        }
    }
    book.bytes().to_vec()
}

/// A block's answer buffer may be said to be longer than any memory: a shorter one does as well.
fn with_room(mut call: Call) -> Call {
    if let Call::TakeBlock { answer_len, .. } = &mut call {
        *answer_len = ROOMY.min(*answer_len);
    }
    call
}

#[test]
fn random_logs() {
    let mut reached = Reached::default();
    let first = from_environment("LOG_SEED", 0);
    for seed in first..first + from_environment("LOGS", LOGS) {
        let case = Case::of(seed);
        let (told, mut engine) = second::<{ mistake::NONE }>(&case);
        let (answered, book) = library(&case);
        assert!(
            answered == told,
            "seed {seed}: {answered:?}, expected {told:?}"
        );
        assert!(book == direct(&case, &told), "seed {seed}: the book");
        same_to_readers(&mut engine, &book, &case, seed);
        reached.note_restored(&case.log, &told[0].1);
        for (from, replayed) in &told {
            reached.note(&case.log, *from, replayed);
        }
        read_by_the_crate(&case.log);
    }
    println!("{reached}");
    assert_eq!(reached.missing(), [""; 0], "not reached");
}

/// All symbols' publications and all lines' records are those of the second implementation's book.
fn same_to_readers(engine: &mut Engine, book: &[u8], case: &Case, seed: u64) {
    let mut memory = book.to_vec();
    let added = case.used.iter().cloned();
    let logged = calls(&case.log).into_iter().map(|(call, _)| call);
    for call in added.chain(logged) {
        let mut published = [[0; 96]; 2];
        if let Call::AddSymbol { symbol, .. } = &call {
            let number = engine.read(symbol, &mut published[0]);
            let library = lent::read(book, symbol, &mut published[1]);
            assert_eq!(u8::from(library), number, "seed {seed}: {call}");
            assert_eq!(published[0], published[1], "seed {seed}: {call}");
        }
        if let Call::OpenLine { line, .. } = call {
            let mut answer = [0; 180];
            let record = engine.take_block(line, &[], &mut answer);
            let library = lent::take_block(&mut memory, line, &[], &mut answer);
            assert_eq!(library.expected, record.expected, "seed {seed}: {line}");
            assert_eq!(library.count, record.count, "seed {seed}: {line}");
        }
    }
}

/// The calls of a log and their times, to where reading stops.
fn calls(log: &[u8]) -> Vec<(Call, u64)> {
    let mut calls = Vec::new();
    let mut at = HEAD_LEN;
    while let Next::Call(call, time, next) = next::<{ mistake::NONE }>(log, at) {
        calls.push((call, time));
        at = next;
    }
    calls
}

/// A reader that gives a few bytes at a time.
struct Pieces<'a>(&'a [u8], usize);

impl Read for Pieces<'_> {
    fn read(&mut self, buffer: &mut [u8]) -> std::io::Result<usize> {
        let len = self.1.min(buffer.len()).min(self.0.len());
        buffer[..len].copy_from_slice(&self.0[..len]);
        self.0 = &self.0[len..];
        Ok(len)
    }
}

/// Head, records, reader and both ways to restore agree with the second reading of a log.
fn read_by_the_crate(log: &[u8]) {
    let head = read_head::<{ mistake::NONE }>(log);
    let expected = head.map(|(n, requests)| Head { n, requests });
    assert_eq!((Head::read(log), lent::log_head(log)), (expected, expected));
    let read = calls(log);
    let mut records = Records::new(log);
    for (record, (call, time)) in (&mut records).zip(&read) {
        same_record(&record, call, *time);
    }
    let stop = records.stop();
    let piece = 1 + log.len() % 97;
    let Some(head) = expected else {
        assert!(LogReader::new(Pieces(log, piece)).is_err());
        assert!(log::restore(log).is_err() && Book::restore(log).is_err());
        return;
    };
    let mut reader = LogReader::new(Pieces(log, piece)).expect("a head");
    assert_eq!(reader.head(), head);
    let mut count = 0;
    while let Some(record) = reader.read().expect("memory") {
        let (call, time) = &read[count];
        same_record(&record, call, *time);
        count += 1;
    }
    assert_eq!((count, reader.stop()), (read.len(), stop));
    assert!(reader.read().expect("memory").is_none());

    let restored = log::restore(log);
    if lent::book_len(u32::from(head.n)).is_none() {
        assert!(restored.is_err() && Book::restore(log).is_err());
        return;
    }
    let restored = restored.expect("a head of 1 to 64 symbols");
    assert_eq!(Some(restored.stop), stop);
    assert_eq!((restored.calls, restored.head), (read.len() as u64, head));
    let pieces = Book::restore(Pieces(log, piece)).expect("a head of 1 to 64 symbols");
    assert!(pieces == restored);
}

/// Writing the record's call gives the record's bytes, which the second implementation writes too.
fn same_record(record: &Record, call: &Call, time: u64) {
    let mut written = Vec::new();
    record.call.write(record.time, &mut written);
    assert_eq!(written, second::log::write(call, time));
    assert_eq!(record.next - record.place, written.len() as u64);
}

#[test]
fn cut_at_every_byte() {
    let whole = small();
    let mut ends: Vec<u64> = Records::new(&whole).map(|record| record.place).collect();
    assert_eq!(ends.len(), 15);
    ends.push(whole.len() as u64);
    for len in 0..=whole.len() {
        let case = Case::plain(whole[..len].to_vec());
        let (told, _) = second::<{ mistake::NONE }>(&case);
        let (answered, book) = library(&case);
        assert!(answered == told, "{len} bytes");
        assert!(book == direct(&case, &told), "{len} bytes");
        read_by_the_crate(&case.log);
        let last = ends.iter().rev().find(|&&end| end <= len as u64);
        let expected = match last {
            None => None,
            Some(&end) if end == len as u64 => Some(Stop::End(end)),
            Some(&end) => Some(Stop::Cut(end)),
        };
        let restored = log::restore(&case.log).ok();
        assert_eq!(
            restored.map(|restored| restored.stop),
            expected,
            "{len} bytes"
        );
    }
}

/// No change of one byte passes: it is told, or it stands behind the stop.
#[test]
fn every_byte_changed() {
    let whole = small();
    for at in 0..whole.len() {
        let mut log = whole.clone();
        log[at] ^= 1 + (at % 255) as u8;
        match log::restore(&log) {
            Err(_) => assert!(at < HEAD_LEN),
            Ok(restored) => {
                assert_ne!(restored.stop.number(), 0);
                assert!(restored.stop.place() <= at as u64);
            }
        }
        read_by_the_crate(&log);
    }
}

#[test]
fn random_bytes() {
    let mut random = Random::new(7);
    for _ in 0..3000 {
        let len = random.below(300);
        let mut log = random.bytes(len);
        // most have a head, and lengths that stay inside
        if len >= HEAD_LEN && random.percent(80) {
            log[..HEAD_LEN].copy_from_slice(&Head::new(1).to_bytes());
        }
        if len >= 20 && random.percent(60) {
            log[16..19].fill(0);
        }
        let case = Case::plain(log);
        let (told, _) = second::<{ mistake::NONE }>(&case);
        let (answered, book) = library(&case);
        assert!(answered == told, "{:?}", case.log);
        assert!(book == direct(&case, &told), "{:?}", case.log);
        read_by_the_crate(&case.log);
    }
}

/// Memory that is no book: every call but make answers 1, and changes nothing.
#[test]
fn memory_of_any_bytes() {
    let log = small();
    for len in [0, 1, 846, 847, 6903] {
        let mut memory = vec![0x5A; len];
        let mut output = vec![0; 1 << 16];
        let from = Records::new(&log).next().expect("make").next;
        let told = lent::replay(&mut memory, &log, from as usize, &mut output);
        assert_eq!(told.number, Number::Done);
        let answers: Vec<_> = Answers::new(&output[..told.written]).collect();
        assert_eq!(answers.len(), 14);
        for answer in answers {
            assert_eq!(
                (answer.report, answer.told),
                ([1, 0, 0, 0, 0, 0, 0], [0, 0])
            );
        }
        assert_eq!(memory, vec![0x5A; len]);
    }
}

/// What a replay answers is what the calls answer.
#[test]
fn answers_of_the_small_log() {
    let log = small();
    let mut memory = vec![0; lent::book_len(1).expect("one symbol")];
    let mut output = vec![0; 1 << 16];
    let told = lent::restore(&mut memory, &log, &mut output);
    assert_eq!((told.number, told.place), (Number::Done, log.len()));
    let answers: Vec<_> = Answers::new(&output[..told.written]).collect();
    assert_eq!(answers.len(), 15);
    assert_eq!(answers[4].report, [0, 0, 2, 1, 1, 0, 0]);
    assert_eq!(answers[4].answers, [0, 0, 3, 0]);
    assert_eq!(&answers[5].publication[..12], b"NR  \0\0\0\0\0\x98\x96\x80");
    assert_eq!((answers[6].report[0], answers[6].told), (0, [1, 14]));
    assert_eq!(answers[7].report[0], 78);
    assert_eq!(answers[9].told, answers[10].told);
    assert_eq!(answers[10].told[1], answers[10].output.len() as u64);
    assert_eq!(answers[11].told, [1, 1]);
    assert_eq!(answers[11].output.len(), 13);
}

/// A whole record that is longer than a reader holds is an error; one that is damaged or cut is told as
/// such. Those who have the log in memory can replay it.
#[test]
fn records_too_long_to_hold() {
    let mut log = Head::new(1).to_bytes().to_vec();
    let block = vec![7; log::RECORD_MAX + 5];
    let call = log::Call::ConvertLen { block: &block };
    call.write(0, &mut log);
    let told = log::restore(&log).expect("a head");
    assert_eq!((told.calls, told.stop), (1, Stop::End(log.len() as u64)));
    assert!(Book::restore(&log[..]).is_err());
    let mut longer = log.clone();
    log::Call::StartDay.write(3, &mut longer);
    let mut reader = LogReader::new(&longer[..]).expect("a head");
    assert!(reader.read().is_err());
    let next = reader.read().expect("memory").expect("a record");
    assert_eq!((next.time, next.call), (3, log::Call::StartDay));
    for len in log.len() - 9..log.len() {
        let restored = Book::restore(Pieces(&log[..len], 4093)).expect("a head");
        assert_eq!(restored, log::restore(&log[..len]).expect("a head"));
        assert_eq!(restored.stop, Stop::Cut(16));
    }
    for at in [40, log.len() - 9, log.len() - 1] {
        log[at] ^= 1;
        let restored = Book::restore(Pieces(&log, 4093)).expect("a head");
        assert_eq!(restored.stop, Stop::Damaged(16));
        let mut reader = LogReader::new(Cursor::new(&log)).expect("a head");
        assert!(reader.read().expect("memory").is_none());
        assert_eq!(reader.stop(), Some(Stop::Damaged(16)));
        log[at] ^= 1;
    }
}

type Reading = fn(&Case) -> (Told, Engine);

macro_rules! mistaken {
    ($($number:literal)*) => {
        &[$(($number, second::<$number> as Reading)),*]
    };
}

/// A reading for each row of the table of mistakes.
const READINGS: &[(u8, Reading)] = mistaken! {
    1 2 3 4 5 6 7 8 9 10 11 12 13 14 15 16 17 18 19 20 21 22 23 24 25 26 27 28
};

#[test]
fn every_mistake_is_found() {
    let numbers = READINGS.iter().map(|&(number, _)| number);
    assert!(numbers.eq(mistake::TABLE.iter().map(|&(number, _)| number)));
    let mut hidden = READINGS.to_vec();
    for seed in 0..LOGS {
        let case = Case::of(seed);
        let (told, _) = library(&case);
        hidden.retain(|&(number, reading)| {
            let found = reading(&case).0 != told;
            if found {
                let (_, sentence) = mistake::TABLE[usize::from(number) - 1];
                println!("{number:2} found in log {seed:3}: {sentence}");
            }
            !found
        });
    }
    let hidden: Vec<u8> = hidden.into_iter().map(|(number, _)| number).collect();
    assert_eq!(hidden, [0; 0], "mistakes that were not found");
}
