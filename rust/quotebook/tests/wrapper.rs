//! What the wrapper adds: enums, sentences, decoded answers and publications, a book that owns its
//! memory.

use std::collections::HashSet;

use quotebook::lent::{self, PUBLICATION_LEN, RUN_MAX, STEPS_LEN};
use quotebook::snapshot::SNAPSHOT_MAX;
use quotebook::{
    Answer, Book, Code, Number, Order, Price, Protection, Publication, Reason, Refusal, Side, Step,
    Trial,
};
use second::build::{self, Odd, Round};
use second::{generate, terms, Call};

#[test]
fn numbers_and_codes_are_those_of_the_documents() {
    let numbers: Vec<u8> = (0..=255)
        .filter(|&byte| Number::try_from(byte).is_ok())
        .collect();
    let mut expected: Vec<u8> = (0..=12).collect();
    expected.extend([
        20, 21, 30, 31, 32, 33, 34, 35, 70, 71, 72, 73, 74, 75, 78, 79, 80, 81, 82, 83, 84, 85, 86,
        90, 91, 92, 93,
    ]);
    assert_eq!(numbers, expected);
    let codes: Vec<u8> = (0..=255)
        .filter(|&byte| Code::try_from(byte).is_ok())
        .collect();
    let mut expected = vec![0];
    expected.extend((40..=49).chain(60..=64).chain(76..=77));
    assert_eq!(codes, expected);
    assert_eq!(Number::try_from(13), Err(13));
    for (byte, case) in numbers.iter().zip(Number::ALL) {
        assert_eq!(
            (u8::from(*case), Number::try_from(*byte)),
            (*byte, Ok(*case))
        );
    }
    assert_eq!(
        u8::from(Number::SymbolUnknown),
        terms::number::SYMBOL_UNKNOWN
    );
    assert_eq!(
        u8::from(Code::SizeWithoutPrice),
        terms::code::SIZE_WITHOUT_PRICE
    );
}

#[test]
fn each_has_a_sentence_of_its_own() {
    let numbers = Number::ALL.iter().map(ToString::to_string);
    let sentences: Vec<String> = numbers
        .chain(Code::ALL.iter().map(ToString::to_string))
        .collect();
    for sentence in &sentences {
        assert!(sentence.ends_with('.') && (10..100).contains(&sentence.len()));
    }
    // 10 and 45 say the same of a symbol.
    let distinct: HashSet<&String> = sentences.iter().collect();
    assert_eq!(distinct.len(), sentences.len() - 1);
}

#[test]
fn refusals_say_why() {
    let refusal = Book::new(65).unwrap_err();
    assert_eq!(refusal.number, Number::Make);
    let said = "A book has room for 1 to 64 symbols, in memory of exactly that length. (2)";
    assert_eq!(refusal.to_string(), said);
    assert!(Number::ALL
        .iter()
        .filter(|number| !number.is_refusal())
        .eq(&[Number::Done, Number::Gap]));
    assert!(Code::FifthLevel.refuses_odd_part() && !Code::MakersFull.refuses_odd_part());
}

#[test]
fn lengths() {
    assert_eq!(lent::book_len(1), Some(976 + 6723));
    assert_eq!(lent::book_len(64), Some(976 + 64 * 6723));
    assert_eq!([0, 65, 257, u32::MAX].map(lent::book_len), [None; 4]);
    assert_eq!(Book::new(3).unwrap().as_bytes().len(), 976 + 3 * 6723);
}

#[test]
fn prices_have_two_to_six_decimals() {
    let shown = |price| Price(price).to_string();
    assert_eq!(shown(10_020_000), "10.02");
    assert_eq!(shown(10_000_000), "10.00");
    assert_eq!(shown(1), "0.000001");
    assert_eq!(shown(120_500), "0.1205");
    assert_eq!(shown(u64::MAX), "18446744073709.551615");
    assert_eq!(
        format!("{:>8}|{:<8}|", Price(5_000_000), Price(5_000_000)),
        "    5.00|5.00    |"
    );
}

/// No quote on a side.
const NOTHING: (u64, u32) = (0, 0);

fn quote(sequence: u32, bid: (u64, u32), odd: &Odd) -> Vec<u8> {
    let round = Round::regular(b'N', 7, "ZT", bid, (10_020_000, 2));
    build::block(
        sequence,
        &[
            build::round_lot(&round, odd),
            build::header(b'Q', b'?', b'N', 7),
        ],
    )
}

fn book() -> Result<Book, Refusal> {
    let mut book = Book::new(2)?;
    book.add_symbol("ZT", 100, b'N')?;
    book.open_line(5, b'N')?;
    book.open_line(7, b'D')?;
    book.start_day()?;
    Ok(book)
}

#[test]
fn a_block_is_answered_message_by_message() -> Result<(), Refusal> {
    let mut book = book()?;
    let odd = Odd {
        clear: b' ',
        bids: vec![(10_010_000, 40)],
        offers: vec![],
    };
    let taken = book.take_block(5, &quote(3, (10_000_000, 3), &odd))?;
    let report = taken.report;
    assert_eq!(
        (report.number, report.gap, report.expected, report.count),
        (Number::Gap, 2, 5, 2)
    );
    assert_eq!((report.accepted, report.partly, report.rejected), (1, 0, 1));
    let answers: Vec<Answer> = taken.answers().collect();
    assert_eq!(answers.len(), report.messages());
    let changes = answers[0].changes;
    assert!(changes.national_bid() && changes.national_offer() && changes.odd_bid());
    assert!(!changes.finra_bid() && !changes.finra_offer() && !changes.odd_offer());
    assert_eq!(changes.bits(), 19);
    assert_eq!(
        answers[0].to_string(),
        "0: The message was accepted. Changed: national bid, national offer, odd bid."
    );
    assert_eq!(
        answers[1].to_string(),
        "1: The category and type are unknown."
    );
    assert_eq!(answers[1].code, Code::UnknownType);
    Ok(())
}

#[test]
fn a_refused_block_tells_the_line_as_it_stands() -> Result<(), Refusal> {
    let mut book = book()?;
    book.take_block(5, &quote(1, (10_000_000, 3), &Odd::IDLE))?;
    let refusal = book
        .take_block(5, &quote(1, (10_000_000, 3), &Odd::IDLE))
        .unwrap_err();
    let expected = Refusal {
        number: Number::Duplicate,
        expected: 3,
        count: 2,
    };
    assert_eq!(refusal, expected);
    let refusal = book.take_block(6, &[]).unwrap_err();
    let expected = Refusal {
        number: Number::LineNotOpen,
        expected: 0,
        count: 0,
    };
    assert_eq!(refusal, expected);
    Ok(())
}

#[test]
fn a_publication_is_decoded() -> Result<(), Refusal> {
    let mut book = book()?;
    assert_eq!(book.read("ZT")?, Publication::default());
    let odd = Odd {
        clear: b' ',
        bids: vec![(10_010_000, 40)],
        offers: vec![],
    };
    book.take_block(5, &quote(1, (10_000_000, 3), &odd))?;
    let round = Round::regular(b'D', 7, "ZT", (9_990_000, 1), (10_015_000, 9));
    let maker = build::maker_quote(&round, build::maker("AB"));
    book.take_block(7, &build::block(1, &[maker]))?;
    let publication = book.read("ZT")?;
    let bid = publication.national_bid.expect("a national bid");
    assert_eq!(
        (bid.condition, bid.reason, bid.price, bid.size),
        (Some(b'R'), Some(Reason::Price), Price(10_000_000), 3)
    );
    assert!(bid.name == "N" && publication.finra_bid.is_some_and(|bid| bid.name == "AB"));
    let shown = "national bid   N R 10.00 x 3, ahead by price\n\
                 national offer D R 10.015 x 9, ahead by price\n\
                 FINRA bid      AB 9.99 x 1\n\
                 FINRA offer    AB 10.015 x 9\n\
                 odd bid        N 10.01 x 40\n\
                 odd offer      none\n";
    assert_eq!(publication.to_string(), shown);
    Ok(())
}

#[test]
fn a_reason_is_decoded() {
    for (byte, reason, words) in [
        (b' ', None, "N R 10.00 x 3"),
        (b'P', Some(Reason::Price), "N R 10.00 x 3, ahead by price"),
        (b'S', Some(Reason::Size), "N R 10.00 x 3, ahead by size"),
        (b'T', Some(Reason::Time), "N R 10.00 x 3, ahead by time"),
        (b'L', Some(Reason::Letter), "N R 10.00 x 3, ahead by letter"),
    ] {
        let entry = [
            b'N', b'R', byte, b' ', 0, 0, 0, 0, 0, 0x98, 0x96, 0x80, 0, 0, 0, 3,
        ];
        let bytes: Vec<u8> = [entry; 6].concat();
        let decoded = Publication::from_bytes(&bytes.try_into().expect("96 bytes"));
        for entry in [decoded.national_bid, decoded.national_offer] {
            let entry = entry.expect("an entry");
            assert_eq!(entry.reason, reason);
            assert_eq!(entry.to_string(), words);
        }
        // Other entries have none, whatever their names.
        for entry in [
            decoded.finra_bid,
            decoded.finra_offer,
            decoded.odd_bid,
            decoded.odd_offer,
        ] {
            assert_eq!(entry.expect("an entry").reason, None);
        }
    }
}

#[test]
fn a_desk_asks_whether_a_price_is_protected() -> Result<(), Refusal> {
    let mut book = book()?;
    book.take_block(5, &quote(1, (10_000_000, 3), &Odd::IDLE))?;
    let round = Round::regular(b'D', 7, "ZT", NOTHING, (10_015_000, 9));
    let maker = build::maker_quote(&round, build::maker("AB"));
    book.take_block(7, &build::block(1, &[maker]))?;
    let asked = |side, price| book.is_protected("ZT", side, Price(price));
    let yes = asked(Side::Bids, 10_000_000)?;
    let expected = Protection {
        side: Side::Bids,
        price: Price(10_000_000),
        letter: Some(b'N'),
    };
    assert_eq!(yes, expected);
    assert!(yes.is_yes() && yes.looked() == 14);
    assert_eq!(yes.to_string(), "yes: N bids 10.00 or more");
    let no = asked(Side::Bids, 10_000_001)?;
    assert!(!no.is_yes() && no.letter.is_none() && no.looked() == 26);
    assert_eq!(no.to_string(), "no: nobody bids 10.000001 or more");
    for (price, letter, said) in [
        (10_020_000, Some(b'D'), "yes: D offers at 10.02 or less"),
        (10_010_000, None, "no: nobody offers at 10.01 or less"),
        (0, None, "no: nobody offers at 0.00 or less"),
    ] {
        let answer = asked(Side::Offers, price)?;
        assert_eq!((answer.letter, answer.to_string().as_str()), (letter, said));
    }
    let refusal = book.is_protected("XX", Side::Bids, Price(0)).unwrap_err();
    assert_eq!(refusal.number, Number::SymbolUnknown);
    let zt = build::symbol("ZT");
    let refused = lent::is_protected(book.as_bytes(), &zt, b'X', 0);
    assert_eq!(
        (refused.number, refused.yes, refused.looked),
        (Number::Side, false, 0)
    );
    Ok(())
}

#[test]
fn a_router_tries_an_order() -> Result<(), Refusal> {
    let mut book = book()?;
    assert_eq!(
        book.try_order("ZT", Order::Buy, 7)?.to_string(),
        "7 not found"
    );
    book.take_block(5, &quote(1, (10_000_000, 3), &Odd::IDLE))?;
    let round = Round::regular(b'D', 7, "ZT", NOTHING, (10_015_000, 9));
    let maker = build::maker_quote(&round, build::maker("AB"));
    book.take_block(7, &build::block(1, &[maker]))?;
    let before = book.clone();
    let trial = book.try_order("ZT", Order::Buy, 10)?;
    let steps = [(b'D', 10_015_000, 9), (b'N', 10_020_000, 1)];
    let steps = steps.map(|(letter, price, lots)| Step {
        letter,
        price: Price(price),
        lots,
    });
    assert_eq!(trial.steps, steps);
    assert_eq!((trial.filled(), trial.unfilled), (10, 0));
    assert_eq!(trial.total(), 9 * 10_015_000 + 10_020_000);
    assert_eq!(trial.average_price(), Some(Price(10_015_500)));
    assert_eq!(trial.to_string(), "D 10.015 x 9, N 10.02 x 1");
    let trial = book.try_order("ZT", Order::Sell, 10)?;
    assert_eq!(trial.to_string(), "N 10.00 x 3; 7 not found");
    assert_eq!((trial.order, trial.total()), (Order::Sell, 30_000_000));
    assert_eq!(book, before);
    for (symbol, lots, number) in [
        ("XX", 1, Number::SymbolUnknown),
        ("ZT", 0, Number::Lots),
        ("ZT", 1_000_001, Number::Lots),
    ] {
        let refusal = book.try_order(symbol, Order::Buy, lots).unwrap_err();
        assert_eq!(refusal.number, number);
    }
    let zt = build::symbol("ZT");
    let mut output = [0xEE; 324];
    let refused = lent::try_order(book.as_bytes(), &zt, b'B', 1, &mut output);
    assert_eq!(
        (refused.number, refused.steps, refused.unfilled),
        (Number::StepsShort, 0, 0)
    );
    assert_eq!(output, [0xEE; 324]);
    Ok(())
}

/// Totals past 64 bits are exact; an average is rounded to the nearest millionth.
#[test]
fn totals_and_averages() {
    let trial = |steps: &[(u64, u32)]| Trial {
        order: Order::Buy,
        steps: steps
            .iter()
            .map(|&(price, lots)| Step {
                letter: b'N',
                price: Price(price),
                lots,
            })
            .collect(),
        unfilled: 0,
    };
    let large = trial(&[(u64::MAX, 999_999), (u64::MAX, 1)]);
    assert_eq!(large.total(), u128::from(u64::MAX) * 1_000_000);
    assert_eq!(large.average_price(), Some(Price(u64::MAX)));
    assert_eq!(trial(&[]).average_price(), None);
    assert_eq!(trial(&[]).total(), 0);
    for (other, average) in [(10, 10), (11, 11), (12, 11), (13, 12)] {
        let halved = trial(&[(10, 1), (other, 1)]);
        assert_eq!(halved.average_price(), Some(Price(average)));
    }
    assert_eq!(trial(&[(10, 2), (11, 1)]).average_price(), Some(Price(10)));
}

#[test]
fn symbols_are_filled_up() -> Result<(), Refusal> {
    let mut book = book()?;
    assert_eq!(
        book.add_symbol(build::symbol("ZT"), 100, b'N')
            .unwrap_err()
            .number,
        Number::SymbolListed
    );
    for wrong in ["", " ", "zt", "Z T", "ABCDEFGHIJKL"] {
        let refusal = book.add_symbol(wrong, 100, b'N').unwrap_err();
        assert_eq!(refusal.number, Number::SymbolMalformed);
        assert_eq!(book.read(wrong).unwrap_err().number, Number::SymbolUnknown);
    }
    book.add_symbol("ABCDEFGHIJK", 1, b'N')?;
    assert!(book.read(b"ABCDEFGHIJK").is_ok());
    Ok(())
}

/// The methods of a book, and the same calls on lent memory: equal answers, and equal bytes after
/// every call.
#[test]
fn a_book_and_lent_memory_agree() {
    for seed in 0..200 {
        let list = generate::list(seed, 200);
        let mut book = Book::new(list.n).expect("n is 1 to 64");
        let mut memory = book.as_bytes().to_vec();
        for call in &list.calls {
            let (method, lent) = match call {
                Call::Make { n } => (book.make(*n), lent::make(&mut memory, *n)),
                Call::AddSymbol {
                    symbol,
                    round_lot,
                    primary,
                } => {
                    let filled = filled_up(symbol);
                    let lent = lent::add_symbol(&mut memory, &filled, *round_lot, *primary);
                    (book.add_symbol(symbol, *round_lot, *primary), lent)
                }
                Call::OpenLine { line, letter } => {
                    let lent = lent::open_line(&mut memory, *line, *letter);
                    (book.open_line(*line, *letter), lent)
                }
                Call::StartDay => (book.start_day(), lent::start_day(&mut memory)),
                Call::EndDay => (book.end_day(), lent::end_day(&mut memory)),
                Call::TakeBlock { line, block, .. } => {
                    let mut answer = [0; 180];
                    let report = lent::take_block(&mut memory, *line, block, &mut answer);
                    let taken = book.take_block(*line, block);
                    if let Ok(taken) = &taken {
                        assert_eq!(taken.report, report);
                        let bytes = answer.chunks_exact(4).take(report.messages());
                        let answers =
                            bytes.map(|answer| Answer::from_bytes(answer.try_into().unwrap()));
                        assert!(taken.answers().eq(answers));
                    }
                    if let Err(refusal) = taken {
                        assert_eq!(
                            (refusal.expected, refusal.count),
                            (report.expected, report.count)
                        );
                    }
                    (taken.map(|_| ()), report.number)
                }
                Call::Read { symbol, .. } => {
                    let mut publication = [0; PUBLICATION_LEN];
                    let lent = lent::read(&memory, &filled_up(symbol), &mut publication);
                    let read = book.read(symbol);
                    if let Ok(read) = read {
                        assert_eq!(read, Publication::from_bytes(&publication));
                    }
                    (read.map(|_| ()), lent)
                }
                // The length has no method of its own.
                Call::SnapshotLen { symbol } | Call::Snapshot { symbol, .. } => {
                    let symbol = filled_up(symbol);
                    let mut output = [0; SNAPSHOT_MAX];
                    let lent = lent::snapshot(&memory, &symbol, &mut output);
                    assert_eq!(lent::snapshot_len(&memory, &symbol), lent);
                    let written = book.snapshot(symbol);
                    if let Ok(written) = &written {
                        assert_eq!(written, &output[..lent.bytes]);
                    }
                    (written.map(|_| ()), lent.number)
                }
                // Shares that are not 64 have no method.
                Call::SetAllowance { shares, .. } if shares.len() != 64 => continue,
                Call::SetAllowance { blocks, shares } => {
                    let lent = lent::set_allowance(&mut memory, *blocks, shares);
                    let shares = shares[..].try_into().unwrap();
                    (book.set_allowance(*blocks, shares), lent)
                }
                Call::Tick => (book.tick(), lent::tick(&mut memory)),
                // A mark that is none has no method.
                Call::IsProtected { side, .. } if !b"BS".contains(side) => continue,
                Call::IsProtected {
                    symbol,
                    side,
                    price,
                } => {
                    let of = if *side == b'B' {
                        Side::Bids
                    } else {
                        Side::Offers
                    };
                    let lent = lent::is_protected(&memory, &filled_up(symbol), *side, *price);
                    let asked = book.is_protected(symbol, of, Price(*price));
                    if let Ok(asked) = asked {
                        assert_eq!((asked.is_yes(), asked.looked()), (lent.yes, lent.looked));
                    }
                    (asked.map(|_| ()), lent.number)
                }
                Call::ConvertLen { block } => {
                    let lent = lent::convert_len(&memory, block);
                    let run = book.convert(block);
                    let len = run.as_ref().map_or(0, |run| run.as_bytes().len());
                    assert_eq!(len, lent.len);
                    (run.map(|_| ()), lent.number)
                }
                Call::Convert { block, .. } => {
                    let mut output = [0; RUN_MAX];
                    let lent = lent::convert(&memory, block, &mut output);
                    let run = book.convert(block);
                    if let Ok(run) = &run {
                        assert_eq!(run.as_bytes(), &output[..lent.len]);
                        assert_eq!(run.blocks().collect::<Vec<_>>().concat(), run.as_bytes());
                    }
                    (run.map(|_| ()), lent.number)
                }
                Call::TryOrder { side, .. } if !b"BS".contains(side) => continue,
                Call::TryOrder {
                    symbol, side, lots, ..
                } => {
                    let order = match *side {
                        b'B' => Order::Buy,
                        _ => Order::Sell,
                    };
                    let mut steps = [0; STEPS_LEN];
                    let filled = filled_up(symbol);
                    let lent = lent::try_order(&memory, &filled, *side, *lots, &mut steps);
                    let tried = book.try_order(symbol, order, *lots);
                    if let Ok(trial) = &tried {
                        let (steps, _) = steps.as_chunks();
                        let steps = steps[..lent.steps].iter().map(Step::from_bytes);
                        assert!(trial.steps.iter().copied().eq(steps));
                        assert_eq!(trial.unfilled, lent.unfilled);
                        assert_eq!(trial.filled() + trial.unfilled, *lots);
                    }
                    (tried.map(|_| ()), lent.number)
                }
            };
            match method {
                Ok(()) => assert!(!lent.is_refusal()),
                Err(refusal) => assert_eq!(refusal.number, lent),
            }
            assert_eq!(book.as_bytes(), memory);
        }
    }
}

fn filled_up(symbol: &[u8]) -> Vec<u8> {
    let mut filled = symbol.to_vec();
    filled.resize(symbol.len().max(11), b' ');
    filled
}
