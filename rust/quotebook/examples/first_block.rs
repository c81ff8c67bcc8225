//! A first block: messages are built and written as a block, a book takes it, and the book is read.

use quotebook::message::{Header, OddLotQuote, RoundLotQuote, Symbol};
use quotebook::{write_block, Book};

fn main() -> Result<(), Box<dyn std::error::Error>> {
    let zt: Symbol = "ZT".parse()?;
    let header = Header::new(b'N', 34_200_000_000_000); // N is the New York Stock Exchange
    let quote = RoundLotQuote::new(header, zt)
        .bid("10.00".parse()?, 3)
        .offer("10.02".parse()?, 2);
    let odd_lot = OddLotQuote::new(header, zt).bid("10.01".parse()?, 40);
    let block = write_block(1, [quote.to_bytes(), odd_lot.to_bytes()])?;

    let mut book = Book::new(1)?; // room for one symbol
    book.add_symbol(zt, 100, b'N')?; // round lots of 100 shares; N may halt it
    book.open_line(5, b'N')?;
    book.start_day()?;
    for answer in book.take_block(5, &block)?.answers() {
        println!("{answer}");
    }
    print!("{}", book.read(zt)?);
    Ok(())
}
