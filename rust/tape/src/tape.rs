//! A tape as values, its bytes, and its bytes read back.

use second::build;
use second::terms::SYMBOL_LEN;

/// A tape that may be refused anywhere: nothing in it is checked.
#[derive(Clone, PartialEq, Eq, Debug, Default)]
pub struct Tape {
    /// The symbols, each with its round lot and its primary letter.
    pub symbols: Vec<([u8; SYMBOL_LEN], u8, u8)>,
    /// The lines, each with its letter.
    pub lines: Vec<(u8, u8)>,
    /// The records: a line and a block.
    pub records: Vec<(u8, Vec<u8>)>,
}

impl Tape {
    /// A tape of no records, with symbols, their round lots and primary letters, lines and their
    /// letters.
    pub fn new(symbols: &[(&str, u8, u8)], lines: &[(u8, u8)]) -> Tape {
        let symbols = symbols.iter();
        Tape {
            symbols: symbols
                .map(|&(symbol, round_lot, primary)| (build::symbol(symbol), round_lot, primary))
                .collect(),
            lines: lines.to_vec(),
            records: Vec::new(),
        }
    }

    /// Adds a record: any bytes as a block on a line.
    pub fn record(&mut self, line: u8, block: Vec<u8>) {
        self.records.push((line, block));
    }

    /// Adds a block of these messages under a sequence number.
    pub fn send(&mut self, line: u8, sequence: u32, messages: &[Vec<u8>]) {
        self.record(line, build::block(sequence, messages));
    }

    /// The setup alone: what comes before the first record. Of more than 255 symbols or lines the
    /// counts are cut.
    pub fn setup(&self) -> Vec<u8> {
        let mut bytes = vec![self.symbols.len() as u8];
        for (symbol, round_lot, primary) in &self.symbols {
            bytes.extend(symbol);
            bytes.extend([*round_lot, *primary]);
        }
        bytes.push(self.lines.len() as u8);
        for &(line, letter) in &self.lines {
            bytes.extend([line, letter]);
        }
        bytes
    }

    /// The whole tape. Of a block over 65,535 bytes the length is cut.
    pub fn bytes(&self) -> Vec<u8> {
        let mut bytes = self.setup();
        for (line, block) in &self.records {
            bytes.extend(record(*line, block));
        }
        bytes
    }

    /// A tape from its bytes, if they end exactly behind the setup or a record.
    pub fn read(mut bytes: &[u8]) -> Option<Tape> {
        let mut tape = Tape::default();
        for _ in 0..byte(&mut bytes)? {
            let symbol = part(&mut bytes, SYMBOL_LEN)?.try_into().ok()?;
            let (round_lot, primary) = (byte(&mut bytes)?, byte(&mut bytes)?);
            tape.symbols.push((symbol, round_lot, primary));
        }
        for _ in 0..byte(&mut bytes)? {
            tape.lines.push((byte(&mut bytes)?, byte(&mut bytes)?));
        }
        while let Some(line) = byte(&mut bytes) {
            let len = u16::from_be_bytes([byte(&mut bytes)?, byte(&mut bytes)?]);
            tape.record(line, part(&mut bytes, usize::from(len))?.to_vec());
        }
        Some(tape)
    }
}

/// The bytes of a record: line, length and block.
pub fn record(line: u8, block: &[u8]) -> Vec<u8> {
    let mut bytes = vec![line];
    bytes.extend((block.len() as u16).to_be_bytes());
    bytes.extend(block);
    bytes
}

fn part<'a>(bytes: &mut &'a [u8], len: usize) -> Option<&'a [u8]> {
    let (part, rest) = bytes.split_at_checked(len)?;
    *bytes = rest;
    Some(part)
}

fn byte(bytes: &mut &[u8]) -> Option<u8> {
    part(bytes, 1).map(|part| part[0])
}
