//! `record`: a tape, or a packet capture with a map of ports to lines, to a recording.

use std::fs::File;
use std::io::{BufReader, BufWriter, Read, Write};

use quotebook::log::{Call, Head};

use super::capture::{self, Map, Packets};
use crate::args::Arguments;
use crate::fault::{Fault, Outcome};
use crate::message::{number, parts, time_of};
use crate::row;
use crate::table::Table;

/// What was written.
#[derive(Default)]
pub struct Written {
    pub calls: u64,
    pub blocks: u64,
    /// Packets of a capture that no line of the map is for.
    pub passed: u64,
}

/// A recording that is being written.
pub struct Writer<W> {
    output: W,
    record: Vec<u8>,
    pub written: Written,
}

impl<W: Write> Writer<W> {
    pub fn new(mut output: W, n: u8) -> Result<Writer<W>, Fault> {
        output.write_all(&Head::new(n).to_bytes())?;
        Ok(Writer {
            output,
            record: Vec::new(),
            written: Written::default(),
        })
    }

    pub fn call(&mut self, time: u64, call: &Call) -> Result<(), Fault> {
        self.record.clear();
        call.write(time, &mut self.record);
        self.output.write_all(&self.record)?;
        self.written.calls += 1;
        if let Call::TakeBlock { .. } = call {
            self.written.blocks += 1;
        }
        Ok(())
    }

    pub fn end(mut self) -> Result<Written, Fault> {
        self.output.flush()?;
        Ok(self.written)
    }
}

pub fn run(arguments: &Arguments, output: &mut dyn Write) -> Result<Outcome, Fault> {
    let path = &arguments.recording;
    let file = File::open(path).map_err(|error| Fault::Usage(format!("{path}: {error}")))?;
    let input = BufReader::new(file);
    let out = BufWriter::new(File::create(arguments.need("-o")?)?);
    let written = match arguments.get("--map") {
        Some(map) => {
            let map = Map::read(map)?;
            let packets = Packets::open(input)?;
            capture::record(&map, packets, out)?
        }
        None => tape(input, out)?,
    };
    let mut table = Table::new(output, arguments.form(), "recorded", &["what", "value"])?;
    table.row(row!["calls", written.calls])?;
    table.row(row!["blocks", written.blocks])?;
    table.row(row!["packets passed over", written.passed])?;
    table.end()?;
    Ok(Outcome::Agreed)
}

/// The calls of the tape program on a tape. A block arrives at the timestamp of its first message; one
/// without messages, or with an earlier one, when the block before it did.
fn tape(mut input: impl Read, output: impl Write) -> Result<Written, Fault> {
    let [symbols] = take(&mut input)?;
    if !(1..=8).contains(&symbols) {
        return Err(Fault::Damaged("a tape has 1 to 8 symbols".to_string()));
    }
    let mut writer = Writer::new(output, symbols)?;
    let mut setup = Vec::new();
    for _ in 0..symbols {
        let symbol: [u8; 11] = take(&mut input)?;
        setup.push((symbol, take::<2>(&mut input)?));
    }
    let [lines] = take(&mut input)?;
    let mut opened = Vec::new();
    for _ in 0..lines {
        opened.push(take::<2>(&mut input)?);
    }
    let mut next = read_block(&mut input)?;
    let mut time = next.as_ref().map_or(0, |(_, block)| stamp(block, 0));
    for (symbol, [round_lot, primary]) in &setup {
        let add = Call::AddSymbol {
            symbol,
            round_lot: (*round_lot).into(),
            primary: *primary,
        };
        writer.call(time, &add)?;
    }
    for [line, letter] in opened {
        let line = line.into();
        writer.call(time, &Call::OpenLine { line, letter })?;
    }
    writer.call(time, &Call::StartDay)?;
    while let Some((line, block)) = next {
        time = stamp(&block, time);
        let take = Call::TakeBlock {
            line: line.into(),
            block: &block,
            room: 180,
        };
        writer.call(time, &take)?;
        next = read_block(&mut input)?;
    }
    writer.end()
}

/// The timestamp of a block's first message, no earlier than the last.
fn stamp(block: &[u8], last: u64) -> u64 {
    let first = parts(block).first().map(|&(start, end)| &block[start..end]);
    first.map_or(0, time_of).max(last)
}

/// A record of the tape; none at its end.
fn read_block(input: &mut impl Read) -> Result<Option<(u8, Vec<u8>)>, Fault> {
    let mut line = [0];
    match input.read(&mut line) {
        Ok(0) => return Ok(None),
        Ok(_) => {}
        Err(error) => return Err(Fault::Damaged(error.to_string())),
    }
    let len: [u8; 2] = take(input)?;
    let mut block = vec![0; number(&len, 0, 2) as usize];
    fill(input, &mut block)?;
    Ok(Some((line[0], block)))
}

fn take<const LEN: usize>(input: &mut impl Read) -> Result<[u8; LEN], Fault> {
    let mut bytes = [0; LEN];
    fill(input, &mut bytes)?;
    Ok(bytes)
}

fn fill(input: &mut impl Read, bytes: &mut [u8]) -> Result<(), Fault> {
    let filled = input.read_exact(bytes);
    filled.map_err(|_| Fault::Damaged("the tape is cut".to_string()))
}
