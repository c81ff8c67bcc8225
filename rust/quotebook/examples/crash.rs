//! Records the calls on a book in a file, crashes, restores the book and goes on.

use std::error::Error;
use std::fs::{self, File};
use std::io::Write;

use quotebook::log::{Flush, Recorder};
use quotebook::message::{Header, RoundLotQuote};
use quotebook::{write_block, Book};

fn quote(sequence: u32, bid: &str) -> Result<Vec<u8>, Box<dyn Error>> {
    let quote = RoundLotQuote::new(Header::new(b'N', 7), "ZT".parse()?).bid(bid.parse()?, 3);
    Ok(write_block(sequence, [quote.to_bytes()])?)
}

fn main() -> Result<(), Box<dyn Error>> {
    let path = std::env::temp_dir().join(format!("quotebook-crash-{}.log", std::process::id()));
    // Each call stands in the file before it is carried out.
    let mut recorder = Recorder::new(File::create_new(&path)?, 1, Flush::Each)?;
    recorder.add_symbol("ZT", 100, b'N')?;
    recorder.open_line(5, b'N')?;
    recorder.at(34_200_000_000_000).start_day()?;
    recorder
        .at(34_200_000_000_500)
        .take_block(5, &quote(1, "10.00")?)?;
    // The process dies while it writes the next record.
    let (_, mut file) = recorder.finish()?;
    file.write_all(&[0, 0, 0, 111, 6])?;
    drop(file);

    let restored = Book::restore(File::open(&path)?)?;
    println!("{} calls restored. {}", restored.calls, restored.stop);
    let file = File::options().write(true).open(&path)?;
    let mut recorder = Recorder::resume(file, restored, Flush::Each)?;
    recorder
        .at(34_201_000_000_000)
        .take_block(5, &quote(2, "10.01")?)?;

    let again = Book::restore(File::open(&path)?)?;
    println!("{} calls restored. {}", again.calls, again.stop);
    if let Some(bid) = again.book.read("ZT")?.national_bid {
        println!("ZT: {bid}");
    }
    fs::remove_file(&path)?;
    Ok(())
}
