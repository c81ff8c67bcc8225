//! Logs of random calls, and what may become of a log.

use super::{head, record, write, HEAD_LEN, KINDS_COUNT, RECORD_LEN, REQUESTS};
use crate::build;
use crate::call::{Call, List};
use crate::generate::Random;

/// A log of a list's calls, with random times. Some buffers are said to be longer than any memory.
pub fn log_of(random: &mut Random, list: &List) -> Vec<u8> {
    let mut log = head(list.n as u8, REQUESTS);
    for call in &list.calls {
        let mut call = call.clone();
        if random.percent(3) {
            lengthen(random, &mut call);
        }
        log.extend(write(&call, random.number()));
    }
    log
}

/// A small log with every kind of call.
pub fn small() -> Vec<u8> {
    let symbol = build::symbol("ZT").to_vec();
    let shown = [(10_000_000, 3), (10_020_000, 2)];
    let round = build::Round::regular(b'N', 7, "ZT", shown[0], shown[1]);
    let quote = build::round_lot(&round, &build::Odd::IDLE);
    let block = build::block(1, &[quote]);
    let calls = [
        Call::Make { n: 1 },
        Call::AddSymbol {
            symbol: symbol.clone(),
            round_lot: 100,
            primary: b'N',
        },
        Call::OpenLine {
            line: 5,
            letter: b'N',
        },
        Call::StartDay,
        Call::TakeBlock {
            line: 5,
            block: block.clone(),
            answer_len: 180,
        },
        Call::Read {
            symbol: symbol.clone(),
            publication_len: 96,
        },
        Call::IsProtected {
            symbol: symbol.clone(),
            side: b'B',
            price: 10_000_000,
        },
        Call::ConvertLen {
            block: block.clone(),
        },
        Call::Convert {
            block,
            output_len: 3600,
        },
        Call::SnapshotLen {
            symbol: symbol.clone(),
        },
        Call::Snapshot {
            symbol: symbol.clone(),
            output_len: 1706,
        },
        Call::TryOrder {
            symbol,
            side: b'B',
            lots: 3,
            steps_len: 325,
        },
        Call::SetAllowance {
            blocks: 70,
            shares: vec![1; 64],
        },
        Call::Tick,
        Call::EndDay,
    ];
    let mut log = head(1, REQUESTS);
    for (time, call) in calls.iter().enumerate() {
        log.extend(write(call, time as u64));
    }
    log
}

/// Adds to a buffer's length what no 32 bits hold, or makes it the longest of all.
fn lengthen(random: &mut Random, call: &mut Call) {
    let longest = random.percent(20);
    if let Call::TakeBlock {
        answer_len: len, ..
    }
    | Call::Read {
        publication_len: len,
        ..
    }
    | Call::Convert {
        output_len: len, ..
    }
    | Call::Snapshot {
        output_len: len, ..
    }
    | Call::TryOrder { steps_len: len, .. } = call
    {
        *len = match longest {
            true => usize::MAX,
            false => *len % 50 + (1 << 32),
        };
    }
}

/// Where the records of a whole log begin, its end among them.
fn places(log: &[u8]) -> Vec<usize> {
    let mut places = vec![HEAD_LEN];
    let mut at = HEAD_LEN;
    while let Some(len) = log.get(at..at + 4) {
        at += super::be(len) as usize;
        places.push(at);
    }
    places
}

/// A whole log, damaged in some way or not at all.
pub fn damaged(random: &mut Random, mut log: Vec<u8>) -> Vec<u8> {
    let place = random.pick(&places(&log));
    match random.weighted(&[3, 4, 4, 2, 2, 3, 3, 3, 2, 2, 1, 4, 3]) {
        0 => {}
        1 => log.truncate(random.below(log.len() + 1)),
        2 => {
            let at = random.below(log.len());
            log[at] ^= 1 << random.below(8);
        }
        // blocks of a file that never reached the disk
        3 => {
            let at = random.below(log.len());
            let end = log.len().min(at + 1 + random.below(600));
            log[at..end].fill(0);
        }
        4 => log[place..].fill(0),
        // a kind that is none
        5 => {
            let kind = random.usually(60, &[0, KINDS_COUNT + 1, 255], &[100, 200]);
            insert(random, &mut log, place, kind, 20);
        }
        // arguments that are too short, or too long
        6 => {
            let kind = 1 + random.below(usize::from(KINDS_COUNT)) as u8;
            insert(random, &mut log, place, kind, 13);
        }
        7 => {
            let kind = random.pick(&[1, 3, 4, 5, 15]);
            insert(random, &mut log, place, kind, 8);
        }
        // a length that is not the record's
        8 if place < log.len() => {
            let short = random.below(40) as u32;
            let len = random.pick(&[short, RECORD_LEN as u32 - 1, u32::MAX, log.len() as u32]);
            log[place..place + 4].copy_from_slice(&len.to_be_bytes());
        }
        9 => {
            let len = random.below(60);
            log.extend(random.bytes(len));
        }
        10 => {
            let len = random.below(400);
            let bytes = random.bytes(len);
            log.splice(HEAD_LEN.., bytes);
        }
        11 => damage_head(random, &mut log),
        _ => exchange(random, &mut log),
    }
    log
}

/// Puts a record with a right check between two others: random arguments, of any length to a bound.
fn insert(random: &mut Random, log: &mut Vec<u8>, place: usize, kind: u8, most: usize) {
    let len = random.below(most + 1);
    let arguments = random.bytes(len);
    let record = record(kind, random.number(), &arguments);
    log.splice(place..place, record);
}

fn damage_head(random: &mut Random, log: &mut Vec<u8>) {
    let (n, requests) = (log[9], u16::from(random.byte()));
    let mut front = head(n, requests);
    match random.below(6) {
        0 => {}
        1 => front = head(random.byte(), REQUESTS),
        2 => front[random.below(16)] ^= 1 << random.below(8),
        3 => {
            front[random.below(9)] ^= 1 << random.below(8);
            let check = super::check(&front[..12]);
            front[12..].copy_from_slice(&check.to_be_bytes());
        }
        4 => front[12..].fill(random.byte()),
        _ => return log.truncate(random.below(HEAD_LEN)),
    }
    log[..HEAD_LEN].copy_from_slice(&front);
}

/// Two records that stand one behind the other, exchanged: the log stays whole.
fn exchange(random: &mut Random, log: &mut [u8]) {
    let places = places(log);
    if places.len() > 2 {
        let at = random.below(places.len() - 2);
        log[places[at]..places[at + 2]].rotate_left(places[at + 1] - places[at]);
    }
}
