//! Blocks that are submitted to a shelf over threads without waiting: the answers come in the order of the
//! blocks, and they and the symbols are those of a shelf on one thread.

mod support;

use std::num::NonZeroUsize;

use second::generate;
use second::Call;
use shelf::{Shelf, ThreadedShelf};
use support::shelves::number;

const SYMBOLS: u32 = 300;

/// Makes the calls that set a shelf up.
fn set_up(calls: &[Call], shelf: &mut Shelf) {
    for call in calls {
        match call {
            Call::AddSymbol {
                symbol,
                round_lot,
                primary,
            } => {
                number(shelf.add_symbol(symbol, *round_lot, *primary));
            }
            Call::OpenLine { line, letter } => {
                number(shelf.open_line(*line, *letter));
            }
            Call::StartDay => {
                number(shelf.start_day());
            }
            _ => {}
        }
    }
}

fn blocks(calls: &[Call]) -> impl Iterator<Item = (u32, &[u8])> {
    calls.iter().filter_map(|call| match call {
        Call::TakeBlock { line, block, .. } => Some((*line, &block[..])),
        _ => None,
    })
}

fn spread(shelf: Shelf, threads: usize, feeder_works: bool) -> ThreadedShelf {
    let threads = NonZeroUsize::new(threads).expect("one or more");
    match feeder_works {
        true => shelf.spread_beside(threads),
        false => shelf.spread(threads),
    }
}

#[test]
fn answers_come_in_order() {
    for (seed, threads) in [(1, 1), (2, 1), (3, 2), (4, 3), (5, 40)] {
        let calls = generate::day(seed, SYMBOLS, 1_500).calls;
        let mut one = Shelf::with_books_of(10, SYMBOLS as usize).expect("n is 1 or more");
        set_up(&calls, &mut one);
        let mut several = Shelf::with_books_of(10, SYMBOLS as usize).expect("n is 1 or more");
        set_up(&calls, &mut several);
        let mut several = spread(several, threads, seed % 2 == 1);
        let mut awaited = blocks(&calls).map(|(line, block)| one.take_block(line, block));
        let mut next = || {
            let taken = awaited.next().expect("a block for each answer");
            taken.map(|taken| (taken.report, taken.answers().collect::<Vec<_>>()))
        };
        let told = |taken: quotebook::Taken| (taken.report, taken.answers().collect::<Vec<_>>());
        for (line, block) in blocks(&calls) {
            if let Some(taken) = several.submit(line, block) {
                assert_eq!(taken.map(told), next());
            }
        }
        while let Some(taken) = several.next_answer() {
            assert_eq!(taken.map(told), next());
        }
        assert!(awaited.next().is_none(), "an answer for each block");
        drop(awaited);
        // Read from the threads, and again when the books are back.
        let symbols = calls.iter().filter_map(|call| match call {
            Call::AddSymbol { symbol, .. } => Some(symbol),
            _ => None,
        });
        let symbols: Vec<_> = symbols.collect();
        for symbol in &symbols {
            assert_eq!(several.read(symbol), one.read(symbol));
        }
        let gathered = several.gather();
        for symbol in &symbols {
            assert_eq!(gathered.book_of(symbol), one.book_of(symbol));
        }
        assert_eq!(gathered.front(), one.front());
    }
}

/// A block that is waited for leaves the answers of those before it.
#[test]
fn a_block_is_waited_for_between_others() {
    let calls = generate::day(7, SYMBOLS, 60).calls;
    let mut one = Shelf::new(SYMBOLS as usize).expect("n is 1 or more");
    set_up(&calls, &mut one);
    let mut several = Shelf::new(SYMBOLS as usize).expect("n is 1 or more");
    set_up(&calls, &mut several);
    let mut several = spread(several, 2, true);
    let report = |taken: Result<quotebook::Taken, _>| taken.map(|taken| taken.report);
    let mut later = Vec::new();
    for (at, (line, block)) in blocks(&calls).enumerate() {
        let awaited = report(one.take_block(line, block));
        if at % 3 == 2 {
            assert_eq!(report(several.take_block(line, block)), awaited);
        } else {
            assert!(several.submit(line, block).is_none());
            later.push(awaited);
        }
    }
    for awaited in later {
        assert_eq!(several.next_answer().map(report), Some(awaited));
    }
    assert!(several.next_answer().is_none());
}
