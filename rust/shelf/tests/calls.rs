//! A shelf's calls by hand.

use std::num::NonZeroUsize;

use quotebook::message::{self, Header, MakerQuote, RoundLotQuote, TradingStatus};
use quotebook::{write_block, Code, Number, Order, Side, Taken};
use shelf::Shelf;

type Done = Result<(), Box<dyn std::error::Error>>;

/// A shelf of so many symbols, X0 and so on, over books of two; N on line 5, D on line 6.
fn shelf(symbols: usize) -> Result<Shelf, Box<dyn std::error::Error>> {
    let mut shelf = Shelf::with_books_of(2, symbols)?;
    for at in 0..symbols {
        shelf.add_symbol(format!("X{at}"), 100, b'N')?;
    }
    shelf.open_line(5, b'N')?;
    shelf.open_line(6, b'D')?;
    shelf.start_day()?;
    Ok(shelf)
}

fn quote(symbol: &str, bid: &str) -> Result<Vec<u8>, Box<dyn std::error::Error>> {
    let quote = RoundLotQuote::new(Header::new(b'N', 7), symbol.parse()?);
    Ok(quote.bid(bid.parse()?, 3).to_bytes())
}

fn maker(symbol: &str, bid: &str) -> Result<Vec<u8>, Box<dyn std::error::Error>> {
    let quote = MakerQuote::new(Header::new(b'D', 7), symbol.parse()?, "MAKE".parse()?);
    Ok(quote.bid(bid.parse()?, 3).to_bytes())
}

fn told(taken: &Taken) -> Vec<(u8, Code, u8)> {
    let answers = taken.answers();
    answers
        .map(|answer| (answer.index, answer.code, answer.changes.bits()))
        .collect()
}

/// Messages of several books in one block, and among them some that no book lists or that are
/// rejected before their symbol is looked at.
#[test]
fn answers_are_merged_in_the_blocks_order() -> Done {
    let mut shelf = shelf(7)?;
    let mut of_another_line = quote("X1", "10.00")?;
    of_another_line[2] = b'P';
    let mut bad_condition = quote("X2", "10.00")?;
    bad_condition[31] = b'?';
    let messages = [
        quote("X6", "10.00")?,
        of_another_line,
        quote("X0", "10.00")?,
        quote("X6", "10.00")?,
        quote("NONE", "10.00")?,
        bad_condition,
        quote("X0", "10.01")?,
    ];
    let taken = shelf.take_block(5, &write_block(1, messages)?)?;
    assert_eq!(
        told(&taken),
        [
            (0, Code::Accepted, 1),
            (1, Code::Letter, 0),
            (2, Code::Accepted, 1),
            (3, Code::Accepted, 0),
            (4, Code::Symbol, 0),
            (5, Code::Condition, 0),
            (6, Code::Accepted, 1),
        ]
    );
    let report = taken.report;
    assert_eq!(
        (report.number, report.expected, report.count),
        (Number::Done, 8, 7)
    );
    assert_eq!((report.accepted, report.partly, report.rejected), (4, 0, 3));
    Ok(())
}

#[test]
fn finra_close_goes_to_every_book() -> Done {
    let mut shelf = shelf(9)?;
    let quotes = [
        maker("X0", "10.00")?,
        maker("X5", "10.00")?,
        maker("X8", "10.00")?,
    ];
    shelf.take_block(6, &write_block(1, quotes)?)?;
    let close = message::finra_close(Header::new(b'D', 8));
    let taken = shelf.take_block(6, &write_block(4, [close])?)?;
    assert_eq!(told(&taken), [(0, Code::Accepted, 5)]);
    for symbol in ["X0", "X5", "X8"] {
        assert_eq!(shelf.read(symbol)?.finra_bid, None, "{symbol}");
    }
    // Off D's line it is rejected, and no book hears of it.
    let open = message::finra_open(Header::new(b'N', 9));
    let taken = shelf.take_block(5, &write_block(1, [open])?)?;
    assert_eq!(told(&taken), [(0, Code::WrongLine, 0)]);
    let open = message::finra_open(Header::new(b'D', 9));
    let taken = shelf.take_block(6, &write_block(5, [open])?)?;
    assert_eq!(told(&taken), [(0, Code::Accepted, 5)]);
    assert!(shelf.read("X8")?.finra_bid.is_some());
    Ok(())
}

/// Gaps and duplicates are the front book's matter: a symbol's book sees only its own messages.
#[test]
fn a_line_may_jump_by_half_its_numbers_again_and_again() -> Done {
    let mut shelf = shelf(4)?;
    let mut number = 1u32;
    for at in 0..6 {
        // X0 is quoted at the beginning and at the end, X1 always.
        let mut messages = vec![quote("X1", "10.00")?];
        if at % 5 == 0 {
            messages.push(quote("X0", "10.00")?);
        }
        let count = messages.len() as u32;
        let taken = shelf.take_block(5, &write_block(number, messages)?)?;
        assert_eq!(taken.report.rejected, 0);
        assert_eq!(taken.report.gap, if at == 0 { 0 } else { u32::MAX / 2 });
        number = number.wrapping_add(count).wrapping_add(u32::MAX / 2);
    }
    let duplicate = write_block(
        number.wrapping_sub(u32::MAX / 2 + 5),
        [quote("X0", "9.00")?],
    )?;
    let refused = shelf.take_block(5, &duplicate).expect_err("a duplicate");
    assert_eq!(refused.number, Number::Duplicate);
    assert_eq!(refused.count, 8);
    assert_eq!(
        shelf.read("X0")?.national_bid.map(|bid| bid.price),
        Some("10.00".parse()?)
    );
    Ok(())
}

/// Two lines of one letter: both are judged by themselves, and their quotes meet.
#[test]
fn two_lines_of_one_letter() -> Done {
    let mut shelf = shelf(3)?;
    shelf.open_line(50, b'N')?;
    for (line, bid) in [(5, "10.00"), (50, "10.02"), (5, "10.01")] {
        let number = shelf.line(line).map_or(0, |line| line.expected);
        shelf.take_block(line, &write_block(number, [quote("X2", bid)?])?)?;
    }
    assert_eq!(
        shelf.read("X2")?.national_bid.map(|bid| bid.price),
        Some("10.01".parse()?)
    );
    assert_eq!(shelf.line(5).map(|line| line.expected), Some(3));
    assert_eq!(shelf.line(50).map(|line| line.expected), Some(2));
    assert_eq!(shelf.line(7), None);
    Ok(())
}

#[test]
fn days_and_symbols() -> Done {
    let mut shelf = Shelf::with_books_of(2, 5)?;
    assert_eq!((shelf.books(), shelf.symbols()), (3, 0));
    shelf.open_line(5, b'N')?;
    shelf.start_day()?;
    // While the day is open.
    for at in 0..5 {
        shelf.add_symbol(format!("X{at}"), 100, b'N')?;
    }
    let refused = |done: Result<(), quotebook::Refusal>| done.map_err(|refusal| refusal.number);
    assert_eq!(
        refused(shelf.add_symbol("X3", 100, b'N')),
        Err(Number::SymbolListed)
    );
    assert_eq!(
        refused(shelf.add_symbol("X3", 7, b'N')),
        Err(Number::RoundLot)
    );
    assert_eq!(
        refused(shelf.add_symbol("Y", 100, b'N')),
        Err(Number::BookFull)
    );
    assert_eq!(
        refused(shelf.add_symbol("Y", 100, b'S')),
        Err(Number::Primary)
    );
    assert_eq!(
        refused(shelf.add_symbol("y", 7, b'S')),
        Err(Number::SymbolMalformed)
    );
    assert_eq!(refused(shelf.start_day()), Err(Number::DayOpen));
    shelf.take_block(5, &write_block(1, [quote("X4", "10.00")?])?)?;
    shelf.end_day()?;
    assert_eq!(refused(shelf.end_day()), Err(Number::DayNotOpen));
    let late = write_block(2, [quote("X4", "11.00")?])?;
    let refusal = shelf.take_block(5, &late).expect_err("the day is closed");
    assert_eq!(
        (refusal.number, refusal.expected),
        (Number::BlockWhileClosed, 2)
    );
    assert!(shelf.read("X4")?.national_bid.is_some());
    shelf.start_day()?;
    assert!(shelf.read("X4")?.national_bid.is_none());
    shelf.take_block(5, &write_block(1, [quote("X4", "12.00")?])?)?;
    assert!(shelf.read("X4")?.national_bid.is_some());
    for (most, n) in [(0, 5), (65, 5), (64, 0)] {
        let refused = Shelf::with_books_of(most, n).expect_err("no shelf");
        assert_eq!(refused.number, Number::Make);
    }
    Ok(())
}

/// Queries by symbol, on one thread and on several.
#[test]
fn queries() -> Done {
    let mut shelf = shelf(7)?;
    let halt = message::trading_status(Header::new(b'N', 8), "X1".parse()?, TradingStatus::Halted);
    let messages = [quote("X6", "10.00")?, quote("X1", "10.00")?, halt];
    shelf.take_block(5, &write_block(1, messages)?)?;
    let price = "10.00".parse()?;
    assert!(shelf.is_protected("X6", Side::Bids, price)?.is_yes());
    assert!(!shelf.is_protected("X1", Side::Bids, price)?.is_yes());
    assert_eq!(shelf.try_order("X6", Order::Sell, 4)?.unfilled, 1);
    assert_eq!(shelf.try_order("X1", Order::Sell, 4)?.unfilled, 4);
    assert_eq!(shelf.snapshot("X6")?.len(), 194 + 62);
    let unknown = shelf.read("X7").expect_err("not listed");
    assert_eq!(unknown.number, Number::SymbolUnknown);
    let threads = NonZeroUsize::new(2).expect("two");
    let mut threads = shelf.spread(threads);
    let yes = threads.with_book_of("X6", move |book| book.is_protected("X6", Side::Bids, price));
    assert!(yes?.is_yes());
    let unknown = threads.with_book_of("X7", |book| book.snapshot("X7"));
    assert_eq!(
        unknown.map_err(|refusal| refusal.number),
        Err(Number::SymbolUnknown)
    );
    assert_eq!(threads.threads(), 2);
    assert_eq!(threads.line(5).map(|line| line.count), Some(3));
    Ok(())
}
