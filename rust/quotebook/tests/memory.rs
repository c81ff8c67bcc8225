//! Books of arbitrary bytes: used books that are then damaged, some of them in the entries of their
//! pages alone, and memory of any length that never was a book. Every call ends, the bytes around
//! every buffer stay, a refused call changes nothing, and what a call answers and leaves is what
//! docs/LAYOUT.md's reading of the bytes gives.

mod support;

use std::collections::BTreeMap;

use second::generate::{self, Random};
use second::{build, Call, Converted, Protected, QuoteBook, Report, SnapshotSize, Tried};
use support::damage::{damage, overwrite, Wrong};
use support::foretold::{self, ensure, Left, NUMBERS};
use support::guarded::{Fenced, Guarded};
use support::layout::{in_page, is_book, page, record, N, SYMBOL};
use support::parts::{
    against_the_entry, beside_the_entry, on_wrong_entries, resent, ASKED, ORDERED, PARTS, RESENT,
};
use support::reading::Reading;

const BOOKS: u64 = 4_000;
/// Books in which the entries of pages are overwritten before each call.
const OVERWRITTEN: u64 = 1_500;
/// The calls of a list that use a book before it is damaged, and those that come after.
const USING: usize = 60;
const AFTER: usize = 40;

#[test]
fn any_memory() {
    let mut reached = BTreeMap::new();
    let mut kept = BTreeMap::new();
    println!("{BOOKS} books from seed 0 on");
    for seed in 0..BOOKS {
        let mut random = Random::new(seed);
        let (mut memory, calls) = used(seed);
        damage(&mut random, &mut memory);
        for call in &calls {
            let call = fit(&mut random, call, &memory);
            let Checked { number, resent, .. } = check_call(&mut memory, &call)
                .unwrap_or_else(|what| panic!("seed {seed}, {call}: {what}"));
            *reached.entry((foretold::row(&call), number)).or_insert(0) += 1;
            for side in resent {
                *kept.entry(side).or_insert(0) += 1;
            }
        }
    }
    for side in RESENT {
        let times = kept.get(side).copied().unwrap_or(0);
        println!("{side} keeps its time: {times} times");
        assert_ne!(times, 0, "{side}");
    }
    for (row, (name, numbers)) in NUMBERS.iter().enumerate() {
        let of_call = reached.range((row, 0)..=(row, u8::MAX));
        let (met, times): (Vec<u8>, Vec<u32>) = of_call.map(|(key, times)| (key.1, times)).unzip();
        println!("{name} {met:?} times {times:?}");
        assert_eq!(met, *numbers, "{name}");
    }
}

/// Sound books whose pages have wrong entries, overwritten before each call. Each kind of part meets
/// each kind of wrong entries, queries are answered otherwise than these say, and orders begin elsewhere.
#[test]
fn wrong_entries() {
    let mut reached = BTreeMap::new();
    println!("{OVERWRITTEN} books from seed 0 on");
    for seed in 0..OVERWRITTEN {
        let mut random = Random::new(seed);
        let (mut memory, calls) = used(seed);
        for call in &calls {
            let wrong = random.pick(&Wrong::ALL);
            overwrite(&mut random, wrong, &mut memory);
            let Checked { met, .. } = check_call(&mut memory, call)
                .unwrap_or_else(|what| panic!("seed {seed}, {wrong:?}, {call}: {what}"));
            if let Some(kind) = met {
                *reached.entry((wrong, kind)).or_insert(0) += 1;
            }
        }
    }
    for wrong in Wrong::ALL {
        for part in PARTS.into_iter().chain([ASKED, ORDERED]) {
            let times = reached.get(&(wrong, part)).copied().unwrap_or(0);
            println!("{wrong:?}, {part}: {times} times");
            assert_ne!(times, 0, "{wrong:?}, {part}");
        }
    }
}

/// The bytes of a book that the first calls of a seed's list have used, and the calls after them.
fn used(seed: u64) -> (Vec<u8>, Vec<Call>) {
    let mut list = generate::list(seed, USING + AFTER);
    let after = list.calls.split_off(USING);
    let mut book = Guarded::fresh(list.n);
    for call in &list.calls {
        make_call(&mut book, call, &mut [0; 2048]);
    }
    (book.bytes().to_vec(), after)
}

/// Fits a call to damaged memory: most blocks get the number that their line expects, some reads and
/// adds the symbol of a page. Now and then the call is a make instead.
fn fit(random: &mut Random, call: &Call, memory: &[u8]) -> Call {
    let mut call = call.clone();
    if random.percent(5) {
        let n = random.pick(&[0, 1, 2, 3, 64, 65, 257]);
        return Call::Make { n };
    }
    if !is_book(memory) || random.percent(30) {
        return call;
    }
    let at = random.below(usize::from(memory[N]));
    let of_page = in_page(at, SYMBOL);
    match &mut call {
        Call::Read { symbol, .. }
        | Call::AddSymbol { symbol, .. }
        | Call::SnapshotLen { symbol }
        | Call::Snapshot { symbol, .. }
        | Call::TryOrder { symbol, .. } => {
            *symbol = memory[of_page].to_vec();
        }
        // A price that stands in the page, or one beside it.
        Call::IsProtected {
            symbol,
            side,
            price,
        } => {
            let reading = Reading::of(&memory[page(at)]);
            *symbol = memory[of_page].to_vec();
            *price = reading.price_of(random.below(42), usize::from(*side == b'S'));
            *price = price.wrapping_add(random.pick(&[0, 0, 1, u64::MAX]));
        }
        Call::TakeBlock { line, block, .. } if *line < 64 && block.len() >= 32 => {
            let (expected, _) = record(memory, *line as usize);
            block[4..8].copy_from_slice(&expected.to_be_bytes());
            build::seal_checksum(block);
        }
        _ => {}
    }
    call
}

/// What a call tells: but for a block, the report has its number alone. What the calls that only read a
/// book tell stands beside it.
#[derive(Default)]
struct Told {
    report: Report,
    asked: Option<Protected>,
    converted: Option<Converted>,
    size: Option<SnapshotSize>,
    tried: Option<Tried>,
}

fn make_call(book: &mut Guarded, call: &Call, buffer: &mut [u8]) -> Told {
    let mut told = Told::default();
    told.report.number = match call {
        Call::Make { n } => book.make(*n),
        Call::AddSymbol {
            symbol,
            round_lot,
            primary,
        } => book.add_symbol(symbol, *round_lot, *primary),
        Call::OpenLine { line, letter } => book.open_line(*line, *letter),
        Call::StartDay => book.start_day(),
        Call::EndDay => book.end_day(),
        Call::TakeBlock { line, block, .. } => {
            told.report = book.take_block(*line, block, buffer);
            return told;
        }
        Call::Read { symbol, .. } => book.read(symbol, buffer),
        Call::IsProtected {
            symbol,
            side,
            price,
        } => {
            let asked = book.is_protected(symbol, *side, *price);
            told.asked = Some(asked);
            asked.number
        }
        Call::ConvertLen { block } => {
            let converted = book.convert_len(block);
            told.converted = Some(converted);
            converted.number
        }
        Call::Convert { block, .. } => {
            let converted = book.convert(block, buffer);
            told.converted = Some(converted);
            converted.number
        }
        Call::SnapshotLen { symbol } => told.size.insert(book.snapshot_len(symbol)).number,
        Call::Snapshot { symbol, .. } => told.size.insert(book.snapshot(symbol, buffer)).number,
        Call::TryOrder {
            symbol, side, lots, ..
        } => {
            let tried = book.try_order(symbol, *side, *lots, buffer);
            told.tried = Some(tried);
            tried.number
        }
        Call::SetAllowance { blocks, shares } => book.set_allowance(*blocks, shares),
        Call::Tick => book.tick(),
    };
    told
}

/// What a call on any memory led to.
struct Checked {
    number: u8,
    /// The kind of a taken block's first message, if that met wrong entries, or a query that was
    /// answered otherwise than the kept entry says, or an order that begins elsewhere.
    met: Option<&'static str>,
    /// Which sides of the first message keep a time.
    resent: Vec<&'static str>,
}

/// Makes one call on any memory and looks at all that it answers and leaves.
fn check_call(memory: &mut Vec<u8>, call: &Call) -> Result<Checked, String> {
    let room = match call {
        Call::TakeBlock { answer_len, .. } => *answer_len,
        Call::Read {
            publication_len, ..
        } => *publication_len,
        Call::Convert { output_len, .. } => *output_len,
        Call::Snapshot { output_len, .. } => *output_len,
        Call::TryOrder { steps_len, .. } => *steps_len,
        _ => 0,
    };
    let pattern: Vec<u8> = (0..room).map(|at| 0xA5 ^ at as u8).collect();
    let mut buffer = Fenced::new(&pattern);
    let mut book = Guarded::over(memory);
    let Told {
        report,
        asked,
        converted,
        size,
        tried,
    } = make_call(&mut book, call, buffer.bytes_mut());

    let number = report.number;
    let (_, numbers) = NUMBERS[foretold::row(call)];
    ensure(numbers.contains(&number), format!("number {number}"))?;
    if let Some(foretold) = foretold::number(memory, call) {
        let right = number == foretold;
        ensure(right, format!("number {number}, not {foretold}"))?;
    }
    let expected = foretold::protected(memory, call, number);
    ensure(asked == expected, format!("{asked:?}, not {expected:?}"))?;
    let expected = foretold::converted(memory, call).map(|(told, _)| told);
    let right = converted == expected;
    ensure(right, format!("{converted:?}, not {expected:?}"))?;
    let expected = foretold::snapshot_size(memory, call, number);
    ensure(size == expected, format!("{size:?}, not {expected:?}"))?;
    let expected = foretold::tried(memory, call, number).map(|(told, _)| told);
    ensure(tried == expected, format!("{tried:?}, not {expected:?}"))?;
    ensure(buffer.stands(), "a byte around the buffer was written")?;
    let left = Left {
        before: memory,
        after: book.bytes(),
        buffer_before: &pattern,
        buffer: buffer.bytes(),
    };
    left.check(call, &report)?;
    let mut checked = Checked {
        number,
        met: None,
        resent: Vec::new(),
    };
    match (call, number) {
        (Call::TakeBlock { block, .. }, 0 | 70) => {
            let (_, messages) = build::split(block).ok_or("no block")?;
            let code = buffer.bytes()[1];
            checked.met = on_wrong_entries(memory, &messages[0], code);
            checked.resent = resent(memory, &messages[0], code);
        }
        (Call::TakeBlock { line, .. }, 86) => {
            let used_up = foretold::is_used_up(memory, *line as usize);
            ensure(used_up, "86 with share or spare left")?;
        }
        (Call::IsProtected { .. }, 0) => {
            checked.met = against_the_entry(memory, call, asked.is_some_and(|told| told.yes));
        }
        (Call::TryOrder { .. }, 0) => {
            let steps = tried.map_or(0, |told| 13 * usize::from(told.steps));
            checked.met = beside_the_entry(memory, call, &buffer.bytes()[..steps]);
        }
        _ => {}
    }
    *memory = book.bytes().to_vec();
    Ok(checked)
}
