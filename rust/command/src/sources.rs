//! By which message each quote, level and status came that stands.

use quotebook::log::Call;

use crate::message::{number, symbol_of, Kind, OddPart};
use crate::play::Worked;
use crate::recording::Played;

/// A message's place in the recording.
#[derive(Clone, Copy, PartialEq, Eq, Debug)]
pub struct Mark {
    /// The record, from 0, and the message in its block, from 0.
    pub record: u64,
    pub message: u8,
    /// The record's arrival time.
    pub time: u64,
    pub line: u8,
    pub sequence: u32,
}

const MARK_LEN: usize = 22;

/// What is known of a symbol.
#[derive(Clone, Default, PartialEq, Eq, Debug)]
pub struct Source {
    /// The latest quote of each letter.
    pub letters: [Option<Mark>; 26],
    pub makers: Vec<([u8; 4], Mark)>,
    /// Of each letter and side, the levels by their prices.
    pub levels: [[Vec<(u64, Mark)>; 2]; 26],
    pub status: Option<Mark>,
}

/// What is known of all symbols, by their places.
#[derive(Clone, Default, PartialEq, Eq, Debug)]
pub struct Sources {
    pub symbols: Vec<Source>,
    /// The last FINRA Close or Open.
    pub finra: Option<Mark>,
}

impl Sources {
    /// Takes in what a record did.
    pub fn note(&mut self, played: &Played) {
        if played.player.done.number != 0 && played.player.done.number != 70 {
            return;
        }
        match played.record.call {
            Call::Make { .. } => *self = Sources::default(),
            Call::AddSymbol { .. } => self.symbols.push(Source::default()),
            Call::StartDay => {
                self.finra = None;
                self.symbols.fill_with(Source::default);
            }
            Call::TakeBlock { line, block, .. } => {
                for (i, worked) in played.player.messages.iter().enumerate() {
                    let mark = Mark {
                        record: played.index,
                        message: i as u8,
                        time: played.record.time,
                        line: line as u8,
                        sequence: worked.sequence,
                    };
                    self.message(&block[worked.start..worked.end], worked, mark);
                }
            }
            _ => {}
        }
    }

    fn message(&mut self, message: &[u8], worked: &Worked, mark: Mark) {
        if !worked.is_in_force {
            return;
        }
        let kind = Kind::of(message);
        if matches!(kind, Kind::FinraClose | Kind::FinraOpen) {
            self.finra = Some(mark);
        }
        let named = symbol_of(message).and(worked.symbol);
        let Some(source) = named.and_then(|place| self.symbols.get_mut(place)) else {
            return;
        };
        let letter = usize::from(message[2] - b'A');
        match kind {
            Kind::RoundLot => source.letters[letter] = Some(mark),
            Kind::Maker => {
                let name = [message[56], message[57], message[58], message[59]];
                source.makers.retain(|(other, _)| *other != name);
                if number(message, 32, 8) > 0 || number(message, 44, 8) > 0 {
                    source.makers.push((name, mark));
                }
            }
            Kind::Status => source.status = Some(mark),
            _ => {}
        }
        // Of a Q K that is partly accepted the odd part does nothing.
        if let Some(part) = OddPart::of(message).filter(|_| worked.code == 0) {
            for side in [0, 1] {
                let levels = &mut source.levels[letter][side];
                if part.clears(side) {
                    levels.clear();
                }
                for item in part.items.iter().filter(|item| item.side == side) {
                    levels.retain(|&(price, _)| price != item.price);
                    if item.shares > 0 {
                        levels.push((item.price, mark));
                    }
                }
            }
        }
    }

    /// All of it in bytes, for a checkpoint.
    pub fn write(&self, bytes: &mut Vec<u8>) {
        write_some(self.finra, bytes);
        bytes.push(self.symbols.len() as u8);
        for source in &self.symbols {
            write_some(source.status, bytes);
            source
                .letters
                .iter()
                .for_each(|&mark| write_some(mark, bytes));
            bytes.push(source.makers.len() as u8);
            for (name, mark) in &source.makers {
                bytes.extend(name);
                mark.write(bytes);
            }
            for levels in source.levels.iter().flatten() {
                bytes.push(levels.len() as u8);
                for (price, mark) in levels {
                    bytes.extend(price.to_be_bytes());
                    mark.write(bytes);
                }
            }
        }
    }

    /// What [`write`](Sources::write) wrote; none if it was something else.
    pub fn read(mut bytes: &[u8]) -> Option<Sources> {
        let left = &mut bytes;
        let finra = read_some(left)?;
        let count = take::<1>(left)?[0];
        let mut symbols = Vec::new();
        for _ in 0..count {
            let mut source = Source {
                status: read_some(left)?,
                ..Source::default()
            };
            for letter in &mut source.letters {
                *letter = read_some(left)?;
            }
            for _ in 0..take::<1>(left)?[0] {
                source.makers.push((take(left)?, Mark::read(left)?));
            }
            for levels in source.levels.iter_mut().flatten() {
                for _ in 0..take::<1>(left)?[0] {
                    levels.push((u64::from_be_bytes(take(left)?), Mark::read(left)?));
                }
            }
            symbols.push(source);
        }
        left.is_empty().then_some(Sources { symbols, finra })
    }
}

impl Mark {
    fn write(self, bytes: &mut Vec<u8>) {
        bytes.extend(self.record.to_be_bytes());
        bytes.extend(self.time.to_be_bytes());
        bytes.extend(self.sequence.to_be_bytes());
        bytes.extend([self.line, self.message]);
    }

    fn read(left: &mut &[u8]) -> Option<Mark> {
        let bytes: [u8; MARK_LEN] = take(left)?;
        Some(Mark {
            record: number(&bytes, 0, 8),
            time: number(&bytes, 8, 8),
            sequence: number(&bytes, 16, 4) as u32,
            line: bytes[20],
            message: bytes[21],
        })
    }
}

fn write_some(mark: Option<Mark>, bytes: &mut Vec<u8>) {
    bytes.push(mark.is_some().into());
    if let Some(mark) = mark {
        mark.write(bytes);
    }
}

fn read_some(left: &mut &[u8]) -> Option<Option<Mark>> {
    match take(left)? {
        [0] => Some(None),
        [1] => Some(Some(Mark::read(left)?)),
        _ => None,
    }
}

fn take<const LEN: usize>(left: &mut &[u8]) -> Option<[u8; LEN]> {
    let (first, rest) = left.split_first_chunk()?;
    *left = rest;
    Some(*first)
}
