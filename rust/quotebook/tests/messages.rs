//! Built messages: their bytes are those of document 01's layouts and of the second implementation,
//! a book accepts each type, and refuses by its own codes what a builder lets pass.

use quotebook::message::{
    self, Clear, Condition, Header, Maker, MakerCondition, MakerQuote, OddLotQuote, RoundLotQuote,
    Symbol,
};
use quotebook::{write_block, Book, Code, FieldError, Price};
use second::build::{self, Odd, Round, Shown};
use second::generate::Random;

const TEN: Price = Price(10_000_000);
const HEADER: Header = Header {
    letter: b'N',
    timestamp: 0x0102_0304_0506_0708,
    reference: 0x1112_1314_1516_1718,
};

fn zt() -> Symbol {
    "ZT".parse().expect("a symbol")
}

fn etmm() -> Maker {
    "ETMM".parse().expect("a maker")
}

#[test]
fn a_header_byte_by_byte() {
    let bytes = b"N\x00\x01\x02\x03\x04\x05\x06\x07\x08\x11\x12\x13\x14\x15\x16\x17\x18";
    let controls = [
        (b"CI", message::inquiry(HEADER)),
        (b"CT", message::line_integrity(HEADER)),
        (b"CC", message::finra_close(HEADER)),
        (b"CO", message::finra_open(HEADER)),
    ];
    for (kind, message) in controls {
        assert_eq!(message, [&kind[..], bytes].concat());
    }
    let test = message::test(HEADER);
    assert_eq!(
        (test.len(), &test[..2], &test[2..20]),
        (115, &b"C5"[..], &bytes[..])
    );
    let text = " !\"#$%&'()*+,-./0123456789:;<=>?@ABCDEFGHIJKLMNOPQRSTUVWXYZ[\\]^_`\
                abcdefghijklmnopqrstuvwxyz{|}~";
    assert_eq!(&test[20..], text.as_bytes());
    assert_eq!(Header::new(b'N', 7).reference, 0);
}

#[test]
fn a_round_lot_quote_byte_by_byte() {
    let quote = RoundLotQuote::new(HEADER, zt())
        .condition(Condition::GapBid)
        .bid(Price(0x0102_0304_0506_0708), 0x090A_0B0C)
        .offer(Price(0x1112_1314_1516_1718), 0x191A_1B1C)
        .clear(Clear::Offers)
        .odd_offer(Price(3), 4)
        .odd_bid(Price(1), 2)
        .odd_bid(Price(5), 6)
        .to_bytes();
    assert_eq!((quote.len(), &quote[..3]), (60 + 3 * 12, &b"QKN"[..]));
    assert_eq!(&quote[20..32], b"ZT         E");
    assert_eq!(quote[32..44], [1, 2, 3, 4, 5, 6, 7, 8, 9, 10, 11, 12]);
    let offer = b"\x11\x12\x13\x14\x15\x16\x17\x18\x19\x1A\x1B\x1C";
    assert_eq!(&quote[44..56], offer);
    assert_eq!(&quote[56..60], b"S\x02\x01\x00");
    // Both bids, then the offer, whatever came first.
    let items = [(1, 2), (5, 6), (3, 4)];
    for ((price, shares), item) in items.into_iter().zip(quote[60..].chunks(12)) {
        assert_eq!(item, [0, 0, 0, 0, 0, 0, 0, price, 0, 0, 0, shares]);
    }
}

#[test]
fn an_odd_lot_quote_byte_by_byte() {
    let odd = OddLotQuote::new(HEADER, zt())
        .clear(Clear::Both)
        .offer(Price(3), 4)
        .bid(Price(1), 2)
        .to_bytes();
    assert_eq!((odd.len(), &odd[..3]), (36 + 2 * 12, &b"QMN"[..]));
    assert_eq!(&odd[20..36], b"ZT         X\x01\x01\x00\x00");
    assert_eq!((odd[43], odd[47], odd[55], odd[59]), (1, 2, 3, 4));
    // FINRA's have the type T and the same layout.
    let of_finra = Header {
        letter: b'D',
        ..HEADER
    };
    let finra = OddLotQuote::new(of_finra, zt())
        .clear(Clear::Both)
        .offer(Price(3), 4)
        .bid(Price(1), 2)
        .to_bytes();
    assert_eq!((&finra[..3], &finra[3..]), (&b"QTD"[..], &odd[3..]));
}

#[test]
fn a_makers_quote_byte_by_byte() {
    let quote = MakerQuote::new(HEADER, zt(), "AB".parse().expect("a maker"))
        .condition(MakerCondition::Closed)
        .bid(Price(1), 2)
        .offer(Price(3), 4)
        .to_bytes();
    assert_eq!((quote.len(), &quote[..3]), (60, &b"QUN"[..]));
    assert_eq!(&quote[20..32], b"ZT         L");
    assert_eq!((quote[39], quote[43], quote[51], quote[55]), (1, 2, 3, 4));
    assert_eq!(&quote[56..], b"AB  ");
}

/// What is not given: condition R, no sides, no clear, no items.
#[test]
fn what_is_not_given() {
    let header = Header::new(b'N', 7);
    let round = Round::regular(b'N', 7, "ZT", (0, 0), (0, 0));
    let quote = RoundLotQuote::new(header, zt()).to_bytes();
    assert_eq!(quote, build::round_lot(&round, &Odd::IDLE));
    let maker = MakerQuote::new(header, zt(), etmm()).to_bytes();
    assert_eq!(maker, build::maker_quote(&round, build::maker("ETMM")));
    let odd = OddLotQuote::new(header, zt()).to_bytes();
    assert_eq!(
        odd,
        build::odd_lot(b'N', 7, build::symbol("ZT"), &Odd::IDLE)
    );
}

/// A random value of every field: the bytes are those of the second implementation's layouts.
#[test]
fn random_messages() {
    let mut random = Random::new(0);
    for _ in 0..5_000 {
        let (letter, time) = (random.byte(), random.number());
        let symbol: [u8; 11] = random.bytes(11).try_into().expect("eleven bytes");
        let maker: [u8; 4] = random.bytes(4).try_into().expect("four bytes");
        let mut shown = || -> Shown { (random.number(), random.number() as u32) };
        let (bid, offer) = (shown(), shown());
        let items = [shown(), shown(), shown(), shown(), shown(), shown()];
        let (bids, offers) = items.split_at(random.below(7));
        let header = Header::new(letter, time);

        let condition = random.pick(Condition::ALL);
        let clear = random.pick(Clear::ALL);
        let mut quote = RoundLotQuote::new(header, symbol.into())
            .condition(condition)
            .bid(Price(bid.0), bid.1)
            .offer(Price(offer.0), offer.1)
            .clear(clear);
        let mut odd = OddLotQuote::new(header, symbol.into()).clear(clear);
        for &(price, shares) in bids {
            quote = quote.odd_bid(Price(price), shares);
            odd = odd.bid(Price(price), shares);
        }
        for &(price, shares) in offers {
            quote = quote.odd_offer(Price(price), shares);
            odd = odd.offer(Price(price), shares);
        }
        let mut round = Round {
            letter,
            time,
            symbol,
            condition: condition.into(),
            bid,
            offer,
        };
        let part = Odd {
            clear: clear.into(),
            bids: bids.to_vec(),
            offers: offers.to_vec(),
        };
        assert_eq!(quote.to_bytes(), build::round_lot(&round, &part));
        let odd_lot = match letter {
            b'D' => build::finra_odd_lot,
            _ => build::odd_lot,
        };
        assert_eq!(odd.to_bytes(), odd_lot(letter, time, symbol, &part));

        let condition = random.pick(MakerCondition::ALL);
        round.condition = condition.into();
        let quote = MakerQuote::new(header, symbol.into(), maker.into())
            .condition(condition)
            .bid(Price(bid.0), bid.1)
            .offer(Price(offer.0), offer.1);
        assert_eq!(quote.to_bytes(), build::maker_quote(&round, maker));
    }
}

#[test]
fn marks_are_those_of_document_01() {
    let bytes = |marks: Vec<u8>| String::from_utf8(marks).expect("letters");
    let conditions = Condition::ALL.iter().map(|&mark| mark.into());
    assert_eq!(bytes(conditions.collect()), "ABCEFHNORUW");
    let conditions = MakerCondition::ALL.iter().map(|&mark| mark.into());
    assert_eq!(bytes(conditions.collect()), "LR");
    let clears = Clear::ALL.iter().map(|&mark| mark.into());
    assert_eq!(bytes(clears.collect()), " BSX");
    assert_eq!(Condition::try_from(b'L'), Err(b'L'));
    assert_eq!(Condition::try_from(b'R'), Ok(Condition::Regular));
}

/// A book with ZT, round lot 100, line 5 for N and line 7 for D, on an open day.
fn book() -> Book {
    let mut book = Book::new(1).expect("a book of one symbol");
    book.add_symbol(zt(), 100, b'N').expect("a symbol");
    book.open_line(5, b'N').expect("a line");
    book.open_line(7, b'D').expect("a line");
    book.start_day().expect("a day");
    book
}

/// The code of a message in a block of its own, as the first block of its line.
fn code(line: u32, message: Vec<u8>) -> Code {
    let block = write_block(1, [message]).expect("a block");
    let taken = book().take_block(line, &block).expect("a taken block");
    let answer = taken.answers().next().expect("one answer");
    answer.code
}

#[test]
fn a_book_accepts_every_type() {
    let (n, d) = (Header::new(b'N', 7), Header::new(b'D', 7));
    for &condition in Condition::ALL {
        let quote = RoundLotQuote::new(n, zt()).condition(condition);
        let quote = quote.bid(TEN, 3).offer(Price(10_020_000), 2);
        assert_eq!(code(5, quote.to_bytes()), Code::Accepted);
        // Which sides count is what the condition's sentence says.
        let mut book = book();
        let block = write_block(1, [quote.to_bytes()]).expect("a block");
        book.take_block(5, &block).expect("a taken block");
        let best = book.read(zt()).expect("a symbol");
        let said = match (best.national_bid, best.national_offer) {
            (Some(_), Some(_)) => ["both sides count.", "both count."],
            (Some(_), None) => ["only the bid counts."; 2],
            (None, Some(_)) => ["only the offer counts."; 2],
            (None, None) => ["neither side counts.", "neither counts."],
        };
        let sentence = condition.sentence();
        assert!(said.iter().any(|end| sentence.ends_with(end)), "{sentence}");
    }
    for &condition in MakerCondition::ALL {
        let quote = MakerQuote::new(d, zt(), etmm()).condition(condition);
        assert_eq!(code(7, quote.bid(TEN, 3).to_bytes()), Code::Accepted);
    }
    for &clear in Clear::ALL {
        for (line, header) in [(5, n), (7, d)] {
            let odd = OddLotQuote::new(header, zt()).clear(clear).bid(TEN, 99);
            assert_eq!(code(line, odd.to_bytes()), Code::Accepted);
        }
        let quote = RoundLotQuote::new(n, zt()).clear(clear).odd_offer(TEN, 0);
        assert_eq!(code(5, quote.to_bytes()), Code::Accepted);
    }
    for control in [message::inquiry, message::line_integrity, message::test] {
        assert_eq!(code(5, control(n)), Code::Accepted);
        assert_eq!(code(7, control(d)), Code::Accepted);
    }
    for control in [message::finra_close, message::finra_open] {
        assert_eq!(code(7, control(d)), Code::Accepted);
    }
}

/// What the module says that a builder lets pass, and the code that a book gives it.
#[test]
fn a_book_refuses_what_a_builder_lets_pass() {
    let (n, d) = (Header::new(b'N', 7), Header::new(b'D', 7));
    let quote = |header, symbol| RoundLotQuote::new(header, symbol).bid(TEN, 3).to_bytes();
    let named = |text: &str| text.parse::<Symbol>().expect("at most eleven bytes");
    assert_eq!(code(5, quote(d, zt())), Code::Letter);
    assert_eq!(code(7, quote(d, zt())), Code::WrongLine);
    for message in [message::finra_close(n), message::finra_open(n)] {
        assert_eq!(code(5, message), Code::WrongLine);
    }
    for symbol in ["", "zt", "Z T", "YY"] {
        assert_eq!(code(5, quote(n, named(symbol))), Code::Symbol);
    }
    let size_alone = RoundLotQuote::new(n, zt()).offer(Price(0), 1);
    assert_eq!(code(5, size_alone.to_bytes()), Code::SizeWithoutPrice);
    for maker in ["", "ab", "A B", "A1"] {
        let quote = MakerQuote::new(d, zt(), maker.parse().expect("at most four bytes"));
        assert_eq!(code(7, quote.bid(TEN, 1).to_bytes()), Code::Maker);
    }
    let odd = || OddLotQuote::new(n, zt());
    assert_eq!(code(5, odd().bid(Price(0), 1).to_bytes()), Code::ItemPrice);
    assert_eq!(code(5, odd().offer(TEN, 100).to_bytes()), Code::ItemShares);
    let many = |count: u64| {
        let quote = RoundLotQuote::new(n, zt());
        (1..=count).fold(quote, |quote, price| quote.odd_bid(Price(price), 1))
    };
    assert_eq!(code(5, many(4).to_bytes()), Code::Accepted);
    assert_eq!(code(5, many(5).to_bytes()), Code::ItemCount);
    assert_eq!(code(5, many(77).to_bytes()), Code::ItemCount);
    // No block has room for more, also where their count would not fit its byte.
    for count in [78, 255, 256, 300, 1000] {
        let refusal = write_block(1, [many(count).to_bytes()]).unwrap_err();
        assert_eq!(u8::from(refusal.number), 71);
    }
}

#[test]
fn symbols_and_makers_are_filled_up() {
    let bytes = |text: &str| {
        text.parse::<Symbol>()
            .map(|symbol| symbol.as_ref().to_vec())
    };
    assert_eq!(bytes("ZT"), Ok(b"ZT         ".to_vec()));
    assert_eq!(bytes(""), Ok(b"           ".to_vec()));
    assert_eq!(bytes("ABCDEFGHIJK"), Ok(b"ABCDEFGHIJK".to_vec()));
    assert_eq!(bytes("ABCDEFGHIJKL"), Err(FieldError::SymbolTooLong));
    // Bytes count, not characters.
    assert_eq!(bytes("ÄÖÜÄÖÜ"), Err(FieldError::SymbolTooLong));
    let bytes = |text: &str| text.parse::<Maker>().map(|maker| maker.as_ref().to_vec());
    assert_eq!(bytes("A"), Ok(b"A   ".to_vec()));
    assert_eq!(bytes("ETMM"), Ok(b"ETMM".to_vec()));
    assert_eq!(bytes("ETMMS"), Err(FieldError::MakerTooLong));
    assert_eq!(Symbol::from(*b"ZT         "), zt());
    assert_eq!(Maker::from(*b"ETMM"), etmm());
}

#[test]
fn prices_are_exact() {
    let price = |text: &str| text.parse::<Price>();
    let exact = [
        ("0", 0),
        ("10", 10_000_000),
        ("10.0", 10_000_000),
        ("10.02", 10_020_000),
        ("0010.020000", 10_020_000),
        ("0.000001", 1),
        ("227.405", 227_405_000),
        ("0.1", 100_000),
        ("18446744073709.551615", u64::MAX),
        ("00000000000000000000000000000000000001", 1_000_000),
    ];
    for (text, millionths) in exact {
        assert_eq!(price(text), Ok(Price(millionths)), "{text}");
    }
    let no_prices = [
        "",
        ".",
        "1.",
        ".5",
        "-1",
        "+1",
        " 1",
        "1 ",
        "1,5",
        "1.2.3",
        "1e3",
        "0x10",
        "1_000",
        "NaN",
        "inf",
        "1.0000000",
        "0.0000001",
        "1.5f",
        "1.-5",
        "1.+5",
        "١",
        "１",
    ];
    for text in no_prices {
        assert_eq!(price(text), Err(FieldError::PriceForm), "{text}");
    }
    for text in [
        "18446744073709.551616",
        "18446744073710",
        "99999999999999999999999999",
    ] {
        assert_eq!(price(text), Err(FieldError::PriceTooLarge), "{text}");
    }
    let mut random = Random::new(0);
    for _ in 0..10_000 {
        let any = Price(random.number() >> random.below(64));
        assert_eq!(price(&any.to_string()), Ok(any));
    }
}

#[test]
fn errors_say_why() {
    let error = "1.0000001".parse::<Price>().unwrap_err();
    let said = "The price is not digits, and perhaps a point with one to six digits behind it.";
    assert_eq!(error.to_string(), said);
    let error: Box<dyn std::error::Error> = Box::new(FieldError::MakerTooLong);
    assert_eq!(error.to_string(), "The maker is over four bytes.");
    let all = [
        FieldError::PriceForm,
        FieldError::PriceTooLarge,
        FieldError::SymbolTooLong,
        FieldError::MakerTooLong,
    ];
    for error in all {
        assert!(error.to_string().ends_with('.'));
    }
}
