//! The recorder: it answers what the book answers, and what it writes restores the book; writes that
//! fail anywhere, logs that are gone on with, checkpoints.

mod support;

use std::fs::{self, File};
use std::io::{self, Cursor, ErrorKind, Write};

use quotebook::log::{
    self, Answers, Call, Checkpoint, Flush, Head, LogError, Record, Recorder, Records, Sink, Stop,
    HEAD_LEN, RECORD_MAX,
};
use quotebook::message::{Header, RoundLotQuote};
use quotebook::{lent, write_block, Book, Number, Order, Price, Side};
use second::generate::{self, Random};
use support::recording::{change, record};

const FLUSHES: [Flush; 6] = [
    Flush::Each,
    Flush::Every(3),
    Flush::Every(1000),
    Flush::Manual,
    Flush::Sync,
    Flush::SyncEvery(2),
];

/// A log of random calls, and n.
fn random_log(seed: u64, calls: usize) -> (u32, Vec<u8>) {
    let list = generate::list(seed, calls);
    let mut log = Head::new(list.n as u8).to_bytes().to_vec();
    for (time, call) in list.calls.iter().enumerate() {
        log.extend(second::log::write(call, time as u64));
    }
    (list.n, log)
}

/// The book after the calls of some records, without a log.
fn book_after<'a>(n: u32, records: impl IntoIterator<Item = Record<'a>>) -> Vec<u8> {
    let mut book = vec![0; lent::book_len(n).expect("n is 1 to 64")];
    assert_eq!(lent::make(&mut book, n), Number::Done);
    for record in records {
        change(&mut book, &record.call);
    }
    book
}

/// Every call is answered as a replay of the log answers it, and the log is what was asked for.
#[test]
fn recorded_and_replayed() {
    for seed in 0..60 {
        let (n, source) = random_log(seed, 80);
        let flush = FLUSHES[seed as usize % FLUSHES.len()];
        let mut recorder = Recorder::new(Vec::new(), n, flush).expect("n is 1 to 64");
        let mut told = Vec::new();
        for Record { time, call, .. } in Records::new(&source) {
            told.push(record(recorder.at(time), &call).expect("memory"));
        }
        assert_eq!(recorder.place(), source.len() as u64);
        let (book, log) = recorder.finish().expect("memory");
        assert!(log == source, "seed {seed}");
        assert!(book.as_bytes() == book_after(n, Records::new(&log)));
        let mut memory = vec![0; book.as_bytes().len()];
        let mut output = vec![0; 1 << 20];
        let replayed = lent::restore(&mut memory, &log, &mut output);
        assert_eq!(replayed.number, Number::Done);
        assert!(memory == book.as_bytes());
        let answers = Answers::new(&output[..replayed.written]);
        assert_eq!(answers.clone().count(), told.len());
        for (told, answer) in told.iter().zip(answers) {
            assert!(told.is(&answer), "seed {seed}: {told:?}, {answer:?}");
        }
    }
}

/// The typed calls answer what the book's do, and log what the book lends.
#[test]
fn typed_calls() {
    let price = |text: &str| text.parse::<Price>().expect("a price");
    let quote = RoundLotQuote::new(Header::new(b'N', 7), "ZT".parse().expect("a symbol"))
        .bid(price("10.00"), 3)
        .offer(price("10.02"), 2);
    let block = write_block(1, [quote.to_bytes()]).expect("a block");
    let mut book = Book::new(2).expect("two symbols");
    let mut recorder = Recorder::new(Vec::new(), 2, Flush::Each).expect("two symbols");
    macro_rules! same {
        ($($call:ident($($argument:expr),*);)*) => {
            $({
                let (plain, logged) = (book.$call($($argument),*), recorder.$call($($argument),*));
                match (plain, logged) {
                    (Ok(plain), Ok(logged)) => assert_eq!(format!("{plain:?}"), format!("{logged:?}")),
                    (Err(plain), Err(LogError::Refused(logged))) => assert_eq!(plain, logged),
                    (_, logged) => panic!("{} differs: {logged:?}", stringify!($call)),
                }
                assert_eq!(&book, recorder.book());
            })*
        };
    }
    same! {
        make(2);
        make(3);
        add_symbol("ZT", 100, b'N');
        add_symbol("ZT", 100, b'N');
        add_symbol("MUCH TOO LONG A SYMBOL", 100, b'N');
        open_line(5, b'N');
        open_line(64, b'N');
        take_block(5, &block);
        end_day();
        start_day();
        start_day();
        take_block(5, &block);
        take_block(5, &block);
        read("ZT");
        read("XX");
        is_protected("ZT", Side::Bids, price("10.00"));
        is_protected("XX", Side::Offers, price("10.00"));
        convert(&block);
        snapshot("ZT");
        snapshot("XX");
        try_order("ZT", Order::Buy, 3);
        try_order("ZT", Order::Sell, 0);
        set_allowance(70, &[1; 64]);
        set_allowance(10, &[1; 64]);
        tick();
        end_day();
    }
    let (_, log) = recorder.finish().expect("memory");
    let kinds: Vec<u8> = Records::new(&log)
        .map(|record| record.call.kind())
        .collect();
    let expected = [
        1, 1, 2, 2, 2, 3, 3, 6, 5, 4, 4, 6, 6, 7, 7, 8, 8, 10, 12, 12, 13, 13, 14, 14, 15, 5,
    ];
    assert_eq!(kinds, expected);
    let restored = log::restore(&log).expect("a head");
    assert_eq!(restored.book, book);
    assert!(Recorder::new(Vec::new(), 65, Flush::Each).is_err());
}

/// A log that takes so many bytes and then fails, some at a time, until it is mended.
#[derive(Default)]
struct Failing {
    log: Vec<u8>,
    room: usize,
    at_once: usize,
    writes: usize,
    syncs: usize,
    sync_fails: bool,
}

impl Write for Failing {
    fn write(&mut self, bytes: &[u8]) -> io::Result<usize> {
        self.writes += 1;
        if self.writes.is_multiple_of(5) {
            return Err(ErrorKind::Interrupted.into());
        }
        let len = bytes
            .len()
            .min(self.at_once)
            .min(self.room - self.log.len());
        if len == 0 {
            return Err(ErrorKind::StorageFull.into());
        }
        self.log.extend(&bytes[..len]);
        Ok(len)
    }

    fn flush(&mut self) -> io::Result<()> {
        Ok(())
    }
}

impl Sink for Failing {
    fn sync(&mut self) -> io::Result<()> {
        self.syncs += 1;
        match self.sync_fails {
            true => Err(ErrorKind::Other.into()),
            false => Ok(()),
        }
    }

    fn length(&mut self) -> io::Result<u64> {
        self.log.length()
    }

    fn truncate(&mut self, len: u64) -> io::Result<()> {
        assert!(len <= self.log.len() as u64);
        Sink::truncate(&mut self.log, len)
    }
}

/// Wherever a write fails, the call is not carried out, calls are refused until a retry succeeds, and
/// then the log is as if nothing had failed.
#[test]
fn writes_that_fail() {
    let source = second::log::small();
    for flush in FLUSHES {
        for room in HEAD_LEN..source.len() {
            fails_at(&source, flush, room);
        }
        let sink = Failing {
            room: HEAD_LEN - 1,
            at_once: 100,
            ..Failing::default()
        };
        assert!(Recorder::new(sink, 1, flush).is_err());
    }
}

fn fails_at(source: &[u8], flush: Flush, room: usize) {
    let sink = Failing {
        room,
        at_once: 1 + room % 40,
        ..Failing::default()
    };
    let mut recorder = Recorder::new(sink, 1, flush).expect("room for the head");
    let mut failed = false;
    for Record {
        time, call, place, ..
    } in Records::new(source)
    {
        let before = recorder.book().clone();
        match record(recorder.at(time), &call) {
            Ok(_) => continue,
            Err(LogError::Io(error)) => assert_eq!(error.kind(), ErrorKind::StorageFull),
            Err(other) => panic!("{other}"),
        }
        failed = true;
        assert_eq!(recorder.book(), &before);
        assert_eq!(recorder.place(), place);
        assert!(matches!(recorder.start_day(), Err(LogError::Failed)));
        assert!(matches!(recorder.flush(), Err(LogError::Failed)));
        assert!(matches!(recorder.checkpoint(), Err(LogError::Failed)));
        let log = &recorder.get_ref().log;
        assert!(log[..] == source[..room], "what was written stands");
        let restored = log::restore(log).expect("a head");
        assert!(restored.stop.place() <= place);
        // no room for what is missing, or for none of it
        if recorder.retry().is_err() {
            assert!(matches!(recorder.start_day(), Err(LogError::Failed)));
        }
        recorder.get_mut().room = source.len();
        recorder.retry().expect("room");
        record(recorder.at(time), &call).expect("room");
    }
    assert!(
        failed || recorder.get_ref().log.len() <= room,
        "{flush:?}, {room}"
    );
    recorder.get_mut().room = source.len();
    let (book, sink) = recorder.finish().expect("room");
    assert!(sink.log == source, "{flush:?}, {room}");
    assert!(book.as_bytes() == book_after(1, Records::new(source)));
}

/// When records are written, and when the log is synced: before the call is carried out.
#[test]
fn flushes() {
    for (flush, written, syncs) in [
        (Flush::Each, [33, 50, 67, 84], [0; 4]),
        (Flush::Every(2), [16, 50, 50, 84], [0; 4]),
        (Flush::Manual, [16; 4], [0; 4]),
        (Flush::Sync, [33, 50, 67, 84], [2, 3, 4, 5]),
        (Flush::SyncEvery(3), [16, 16, 67, 67], [1, 1, 2, 2]),
    ] {
        let sink = Failing {
            room: 1 << 20,
            at_once: 1 << 20,
            ..Failing::default()
        };
        let mut recorder = Recorder::new(sink, 1, flush).expect("room");
        for at in 0..4 {
            drop(recorder.end_day());
            let sink = recorder.get_ref();
            assert_eq!(
                (sink.log.len(), sink.syncs),
                (written[at], syncs[at]),
                "{flush:?}"
            );
        }
        recorder.flush().expect("room");
        assert_eq!(recorder.get_ref().log.len(), 84);
        let before = recorder.get_ref().syncs;
        recorder.sync().expect("room");
        assert!(recorder.get_ref().syncs > before);
    }
    // what is gathered does not grow for ever
    let mut recorder = Recorder::new(Vec::new(), 1, Flush::Manual).expect("one symbol");
    let block = vec![0; 10_000];
    for _ in 0..20 {
        drop(recorder.convert(&block));
    }
    assert!(recorder.get_ref().len() > 100_000);
}

/// After a sync that failed the call is not carried out; a retry takes its record back.
#[test]
fn syncs_that_fail() {
    let sink = Failing {
        room: 1 << 20,
        at_once: 1 << 20,
        ..Failing::default()
    };
    let mut recorder = Recorder::new(sink, 1, Flush::Sync).expect("room");
    recorder.get_mut().sync_fails = true;
    assert!(matches!(recorder.start_day(), Err(LogError::Io(_))));
    assert_eq!(recorder.get_ref().log.len(), 33);
    assert!(recorder.retry().is_err());
    recorder.get_mut().sync_fails = false;
    recorder.retry().expect("room");
    assert_eq!(recorder.get_ref().log.len(), HEAD_LEN);
    assert!(matches!(recorder.end_day(), Err(LogError::Refused(_))));
    recorder.start_day().expect("a closed day");
}

#[test]
fn records_too_long_to_write() {
    let mut recorder = Recorder::new(Vec::new(), 1, Flush::Each).expect("one symbol");
    let longest = RECORD_MAX - 17 - 13;
    let block = vec![0; longest + 1];
    assert!(matches!(recorder.convert(&block), Err(LogError::TooLong)));
    assert_eq!(recorder.place(), 16);
    assert!(matches!(
        recorder.convert(&block[1..]),
        Err(LogError::Refused(_))
    ));
    let (_, log) = recorder.finish().expect("memory");
    assert_eq!(Book::restore(&log[..]).expect("a head").calls, 1);
}

/// A log that is cut anywhere is gone on with, and ends as if it had not been cut.
#[test]
fn logs_gone_on_with() {
    let (n, source) = random_log(3, 60);
    let mut random = Random::new(3);
    for _ in 0..300 {
        let len = HEAD_LEN + random.below(source.len() + 1 - HEAD_LEN);
        let mut log = source[..len].to_vec();
        // what a crash may leave behind: nothing, or zeros
        log.resize(len + random.pick(&[0, 0, 1, 30, 4096]), 0);
        let restored = log::restore(&log).expect("a head");
        let place = restored.stop.place();
        assert!(place <= len as u64);
        let flush = random.pick(&FLUSHES);
        let mut recorder = Recorder::resume(log, restored, flush).expect("memory");
        for Record { time, call, .. } in Records::at(&source, place as usize) {
            record(recorder.at(time), &call).expect("memory");
        }
        let (book, log) = recorder.finish().expect("memory");
        assert!(log == source);
        assert!(book.as_bytes() == book_after(n, Records::new(&source)));
    }
}

/// A log that is shorter than the one that was restored from is not gone on with, and one that has bytes
/// is not begun.
#[test]
fn another_log() {
    let log = second::log::small();
    let restored = || log::restore(&log).expect("a head");
    let shorter = log[..log.len() - 1].to_vec();
    assert!(Recorder::resume(shorter, restored(), Flush::Each).is_err());
    let path = std::env::temp_dir().join(format!("quotebook-another-{}", std::process::id()));
    let file = File::create_new(&path).expect("a new file");
    assert!(Recorder::resume(file, restored(), Flush::Each).is_err());
    assert!(fs::read(&path).expect("the file").is_empty());
    fs::remove_file(&path).expect("the file");
    assert!(Recorder::new(log.clone(), 1, Flush::Each).is_err());
}

/// From a checkpoint taken anywhere the rest of the log gives the same book.
#[test]
fn checkpoints() {
    let (n, source) = random_log(5, 60);
    let mut recorder = Recorder::new(Vec::new(), n, Flush::Manual).expect("n is 1 to 64");
    let mut kept = vec![recorder.checkpoint().expect("memory")];
    for Record { time, call, .. } in Records::new(&source) {
        record(recorder.at(time), &call).expect("memory");
        kept.push(recorder.checkpoint().expect("memory"));
    }
    let (book, log) = recorder.finish().expect("memory");
    for (before, checkpoint) in kept.iter().enumerate() {
        let again = Checkpoint::from_bytes(&checkpoint.to_bytes()).expect("a checkpoint");
        assert_eq!(&again, checkpoint);
        assert!(again.book().as_bytes() == book_after(n, Records::new(&log).take(before)));
        let restored = again.restore(Cursor::new(&log)).expect("its log");
        assert_eq!(restored.book, book);
        assert_eq!(restored.calls, (kept.len() - 1 - before) as u64);
        assert_eq!(restored.stop, Stop::End(log.len() as u64));
        // gone on with from there, the next checkpoint is as good
        let mut recorder = Recorder::resume(log.clone(), restored, Flush::Each).expect("memory");
        let next = recorder.checkpoint().expect("memory");
        assert_eq!(&next, kept.last().expect("the last"));
        // a log that has lost what stood before the checkpoint, or another one
        let place = checkpoint.place() as usize;
        for wrong in [&log[..place - 1], &random_log(6, 60).1] {
            let restored = checkpoint.clone().restore(Cursor::new(wrong));
            assert!(matches!(
                restored,
                Err(LogError::OtherLog | LogError::NoHead)
            ));
        }
    }
    let bytes = kept[20].to_bytes();
    for len in 0..bytes.len() {
        let cut = Checkpoint::from_bytes(&bytes[..len]);
        assert!(matches!(cut, Err(LogError::NoCheckpoint)));
        if len % 7 == 0 || len < 40 || bytes.len() - len < 40 {
            let mut changed = bytes.clone();
            changed[len] ^= 1 + (len % 255) as u8;
            assert!(Checkpoint::from_bytes(&changed).is_err(), "byte {len}");
        }
    }
}

/// The same with files.
#[test]
fn files() {
    let folder = std::env::temp_dir().join(format!("quotebook-recorder-{}", std::process::id()));
    fs::create_dir_all(&folder).expect("a folder");
    let (path, kept) = (folder.join("calls.log"), folder.join("calls.checkpoint"));
    let file = File::create_new(&path).expect("a new file");
    let mut recorder = Recorder::new(file, 1, Flush::Sync).expect("a file");
    recorder.add_symbol("ZT", 100, b'N').expect("a symbol");
    recorder
        .checkpoint()
        .expect("a file")
        .save(&kept)
        .expect("a file");
    recorder.open_line(5, b'N').expect("a line");
    let (book, mut file) = recorder.finish().expect("a file");
    file.write_all(&[0; 100]).expect("a file");
    drop(file);

    let restored = Book::restore(File::open(&path).expect("the file")).expect("a head");
    assert_eq!((restored.calls, &restored.book), (2, &book));
    assert_eq!(restored.stop.number(), 92);
    let checkpoint = Checkpoint::load(&kept).expect("a checkpoint");
    let after = checkpoint.restore(File::open(&path).expect("the file"));
    let after = after.expect("its log");
    assert_eq!(
        (after.calls, &after.book, after.stop),
        (1, &book, restored.stop)
    );

    let file = File::options().write(true).open(&path).expect("the file");
    let mut recorder = Recorder::resume(file, after, Flush::Each).expect("a file");
    recorder.start_day().expect("a closed day");
    let restored = Book::restore(File::open(&path).expect("the file")).expect("a head");
    assert_eq!(&restored.book, recorder.book());
    assert_eq!((restored.calls, restored.stop.number()), (3, 0));
    fs::remove_dir_all(&folder).expect("the folder");
}

/// Whole lists of calls are logs: the sentences say where a log stops.
#[test]
fn stops_in_words() {
    let mut log = Head::new(1).to_bytes().to_vec();
    assert_eq!(
        Records::new(&log).stop().map(|stop| stop.to_string()),
        Some("The log ends at byte 16, behind a whole record.".to_string())
    );
    Call::StartDay.write(0, &mut log);
    log[20] = 99;
    assert_eq!(
        Records::new(&log).stop().map(|stop| stop.to_string()),
        Some("The record at byte 16 is damaged.".to_string())
    );
    log.truncate(20);
    assert_eq!(
        Records::new(&log).stop().map(|stop| stop.to_string()),
        Some("The log ends inside the record at byte 16.".to_string())
    );
}
