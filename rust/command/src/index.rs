//! Checkpoints of a recording, in a file beside it, so that the book at a time is soon at hand.
//!
//! The file begins with a mark and the recording's head. A checkpoint is a record of it: the book, by
//! which messages its quotes came, and where the recording goes on. One is used only if its own check is
//! right and the recording has the same record before that place. Nothing depends on the file: where it
//! cannot be read or written, the recording is worked from its beginning.

use std::fs::{File, OpenOptions};
use std::io::{Read, Seek, SeekFrom, Write};
use std::ops::ControlFlow;

use quotebook::lent;
use quotebook::log::{check, HEAD_LEN};

use crate::args::Arguments;
use crate::fault::Fault;
use crate::message::{number, Symbol};
use crate::page::Page;
use crate::play::Player;
use crate::recording::Recording;
use crate::sources::Sources;

const MARK: [u8; 8] = *b"QBOOKIDX";
/// The mark and the recording's head.
const FRONT_LEN: usize = 8 + HEAD_LEN;
/// Messages between two checkpoints, if no other number is given.
const EVERY: u64 = 1_000_000;

/// A book at a time.
pub struct Moment {
    pub player: Player,
    pub sources: Sources,
    /// The records carried out.
    pub records: u64,
    /// The time of the last of them.
    pub time: Option<u64>,
}

/// What a checkpoint tells beside the book: all its fields have eight bytes.
#[derive(Clone, Copy)]
struct Checkpoint {
    /// Where the recording goes on.
    place: u64,
    records: u64,
    messages: u64,
    /// The latest time so far.
    time: u64,
    /// The record before: where it begins, and its last four bytes.
    before: u64,
    sum: u64,
    book_len: u64,
}

const FIELDS: usize = 7;
/// The length of a checkpoint's record, then its fields.
const FIXED_LEN: usize = 8 + 8 * FIELDS;

impl Checkpoint {
    fn fields(&self) -> [u64; FIELDS] {
        let Checkpoint {
            place,
            records,
            messages,
            time,
            before,
            sum,
            book_len,
        } = *self;
        [place, records, messages, time, before, sum, book_len]
    }

    fn read(bytes: &[u8; FIXED_LEN]) -> (u64, Checkpoint) {
        let field = |at: usize| number(bytes, 8 * at, 8);
        let checkpoint = Checkpoint {
            place: field(1),
            records: field(2),
            messages: field(3),
            time: field(4),
            before: field(5),
            sum: field(6),
            book_len: field(7),
        };
        (field(0), checkpoint)
    }

    fn write(&self, book: &[u8], sources: &Sources) -> Vec<u8> {
        let mut bytes = vec![0; 8];
        bytes.extend(self.fields().iter().flat_map(|field| field.to_be_bytes()));
        bytes.extend(book);
        sources.write(&mut bytes);
        let len = bytes.len() as u64 + 4;
        bytes[..8].copy_from_slice(&len.to_be_bytes());
        let sum = check(&bytes);
        bytes.extend(sum.to_be_bytes());
        bytes
    }
}

/// The file of checkpoints.
struct Index {
    path: String,
    front: [u8; FRONT_LEN],
    /// Where checkpoints are appended, and the place of the recording that the last one knows.
    end: u64,
    last: u64,
    is_lost: bool,
}

impl Index {
    /// The last checkpoint that is not behind a time, with its book and sources.
    fn find(&mut self, recording: &str, latest: u64) -> Option<(Checkpoint, Player, Sources)> {
        let mut file = File::open(&self.path).ok()?;
        let mut front = [0; FRONT_LEN];
        file.read_exact(&mut front).ok()?;
        if front != self.front {
            return None;
        }
        let len = file.metadata().ok()?.len();
        let mut found: Option<(u64, u64, Checkpoint)> = None;
        let mut at = FRONT_LEN as u64;
        loop {
            let mut fixed = [0; FIXED_LEN];
            if file.seek(SeekFrom::Start(at)).is_err() || file.read_exact(&mut fixed).is_err() {
                break;
            }
            let (entry_len, checkpoint) = Checkpoint::read(&fixed);
            if entry_len < FIXED_LEN as u64 || entry_len > len - at {
                break;
            }
            if checkpoint.time <= latest {
                found = Some((at, entry_len, checkpoint));
            }
            at += entry_len;
            (self.end, self.last) = (at, checkpoint.place);
        }
        let (at, entry_len, checkpoint) = found?;
        let loaded = load(&mut file, at, entry_len, &checkpoint, recording);
        if loaded.is_none() {
            // It does not fit: all of it is written anew.
            (self.end, self.last) = (0, 0);
        }
        let (player, sources) = loaded?;
        Some((checkpoint, player, sources))
    }

    /// Appends a checkpoint. What cannot be written is left.
    fn append(&mut self, checkpoint: &Checkpoint, book: &[u8], sources: &Sources) {
        if self.is_lost || checkpoint.place <= self.last {
            return;
        }
        let write = || -> std::io::Result<u64> {
            let mut options = OpenOptions::new();
            let mut file = options
                .write(true)
                .create(true)
                .truncate(false)
                .open(&self.path)?;
            file.set_len(self.end)?;
            file.seek(SeekFrom::Start(self.end))?;
            if self.end == 0 {
                file.write_all(&self.front)?;
            }
            file.write_all(&checkpoint.write(book, sources))?;
            file.stream_position()
        };
        match write() {
            Ok(end) => (self.end, self.last) = (end, checkpoint.place),
            Err(_) => self.is_lost = true,
        }
    }
}

/// The book and the sources of a checkpoint, if it is whole and fits the recording.
fn load(
    file: &mut File,
    at: u64,
    len: u64,
    checkpoint: &Checkpoint,
    recording: &str,
) -> Option<(Player, Sources)> {
    let mut bytes = vec![0; usize::try_from(len).ok()?];
    file.seek(SeekFrom::Start(at)).ok()?;
    file.read_exact(&mut bytes).ok()?;
    let (checked, sum) = bytes.split_last_chunk::<4>()?;
    if check(checked) != u32::from_be_bytes(*sum) || !fits(checkpoint, recording) {
        return None;
    }
    let rest = checked.get(FIXED_LEN..)?;
    let (book, sources) = rest.split_at_checked(usize::try_from(checkpoint.book_len).ok()?)?;
    let sources = Sources::read(sources)?;
    if !lent::is_book(book) {
        return None;
    }
    let symbols =
        (0..sources.symbols.len()).map(|place| Page::symbol(book, place)?.try_into().ok());
    let listed: Vec<Symbol> = symbols.collect::<Option<_>>()?;
    Some((Player::resume(book.to_vec(), listed), sources))
}

/// Whether the recording has the record before the checkpoint's place.
fn fits(checkpoint: &Checkpoint, recording: &str) -> bool {
    let read = || -> std::io::Result<[u8; 4]> {
        let mut file = File::open(recording)?;
        let mut len = [0; 4];
        file.seek(SeekFrom::Start(checkpoint.before))?;
        file.read_exact(&mut len)?;
        let end = checkpoint.before + u64::from(u32::from_be_bytes(len));
        if end != checkpoint.place {
            return Ok([0; 4]);
        }
        let mut sum = [0; 4];
        file.seek(SeekFrom::Start(end - 4))?;
        file.read_exact(&mut sum)?;
        Ok(sum)
    };
    read().is_ok_and(|sum| u64::from(u32::from_be_bytes(sum)) == checkpoint.sum)
}

/// The last four bytes of the record between two places.
fn sum_of(recording: &str, next: u64) -> Option<u64> {
    let mut file = File::open(recording).ok()?;
    let mut sum = [0; 4];
    file.seek(SeekFrom::Start(next - 4)).ok()?;
    file.read_exact(&mut sum).ok()?;
    Some(u32::from_be_bytes(sum).into())
}

/// Carries out the recording up to a time, from the last checkpoint before it.
pub fn moment(
    arguments: &Arguments,
    recording: &mut Recording,
    latest: u64,
) -> Result<Moment, Fault> {
    let path = match arguments.get("--index") {
        Some(path) => path.to_string(),
        None => format!("{}.index", arguments.recording),
    };
    let every = match arguments.get("--every").map(str::parse::<u64>) {
        None => EVERY,
        Some(Ok(every)) if every > 0 => every,
        Some(_) => return Fault::usage("--every: the messages between two checkpoints"),
    };
    let mut front = [0; FRONT_LEN];
    front[..8].copy_from_slice(&MARK);
    front[8..].copy_from_slice(&recording.head.to_bytes());
    let mut index = Index {
        is_lost: path == "-",
        path,
        front,
        end: 0,
        last: 0,
    };
    let mut moment = Moment {
        player: Player::new(recording.head.n, false),
        sources: Sources::default(),
        records: 0,
        time: None,
    };
    let (mut messages, mut time) = (0, 0);
    let found = match index.is_lost {
        true => None,
        false => index.find(&arguments.recording, latest),
    };
    if let Some((checkpoint, player, sources)) = found {
        recording.seek(checkpoint.place)?;
        moment = Moment {
            player,
            sources,
            records: checkpoint.records,
            time: Some(checkpoint.time),
        };
        (messages, time) = (checkpoint.messages, checkpoint.time);
    }
    let first = moment.records;
    let mut due = (messages / every + 1) * every;
    let Moment {
        player,
        sources,
        records,
        time: last_time,
    } = &mut moment;
    recording.play(player, first, latest, |played| {
        sources.note(played);
        *records += 1;
        *last_time = Some(played.record.time);
        time = time.max(played.record.time);
        messages += played.player.messages.len() as u64;
        if messages >= due {
            due = (messages / every + 1) * every;
            let book = &played.player.book.memory;
            let checkpoint = Checkpoint {
                place: played.record.next,
                records: *records,
                messages,
                time,
                before: played.record.place,
                sum: sum_of(&arguments.recording, played.record.next).unwrap_or(u64::MAX),
                book_len: book.len() as u64,
            };
            index.append(&checkpoint, book, sources);
        }
        Ok(ControlFlow::Continue(()))
    })?;
    Ok(moment)
}
