//! Two exchanges quote ZT, and a desk asks. Written from README.md and docs/WIRE.md alone.

use quotebook::message::{Header, RoundLotQuote};
use quotebook::{write_block, Book, Side};

fn main() -> Result<(), Box<dyn std::error::Error>> {
    let mut book = Book::new(1)?;
    book.add_symbol("ZT", 100, b'N')?;
    book.open_line(5, b'N')?;
    book.open_line(7, b'P')?;
    book.start_day()?;
    for (line, sequence, letter, [bid, offer], [bid_lots, offer_lots]) in [
        (5, 1, b'N', ["10.00", "10.02"], [3, 2]),
        (7, 1, b'P', ["10.01", "10.03"], [5, 1]),
        (5, 5, b'N', ["10.00", "10.02"], [3, 4]),
        (7, 1, b'P', ["10.01", "10.03"], [5, 1]),
    ] {
        let header = Header::new(letter, 34_200_000_000_000);
        let quote = RoundLotQuote::new(header, "ZT".parse()?)
            .bid(bid.parse()?, bid_lots)
            .offer(offer.parse()?, offer_lots);
        match book.take_block(line, &write_block(sequence, [quote.to_bytes()])?) {
            Ok(taken) => {
                let (gap, next) = (taken.report.gap, taken.report.expected);
                println!("line {line}: taken, gap {gap}, {next} is next");
            }
            Err(refusal) => println!("line {line}: {refusal}"),
        }
    }
    let best = book.read("ZT")?;
    for (what, entry) in [("bid", best.national_bid), ("offer", best.national_offer)] {
        let entry = entry.ok_or("none")?;
        println!("{what} {} {} x {}", entry.name, entry.price, entry.size);
    }
    let told = book.is_protected("ZT", Side::Bids, "10.01".parse()?)?;
    let (yes, looked) = (told.is_yes(), told.looked());
    println!("10.01 is bid: {yes}, {looked} letters looked at");
    Ok(())
}
