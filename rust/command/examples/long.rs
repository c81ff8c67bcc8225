//! Writes a long recording of the benchmarks' market: so many messages, of 8 symbols on 16 lines.
//!
//! `cargo run --release -p quotebook-command --example long -- 10000000 long.log`

#[path = "../../bench/src/market.rs"]
#[allow(dead_code)]
mod market;

use std::error::Error;
use std::fs::File;
use std::io::{BufWriter, Write};

use market::{Market, LETTERS};
use quotebook::log::{Call, Head};
use second::build;

const SYMBOLS: usize = 8;
const HALF_PAST_NINE: u64 = 34_200_000_000_000;
/// The day's six and a half hours.
const DAY: u64 = 23_400_000_000_000;

fn main() -> Result<(), Box<dyn Error>> {
    let words: Vec<String> = std::env::args().skip(1).collect();
    let [messages, path] = words.as_slice() else {
        return Err("the number of messages and the file".into());
    };
    let messages: u64 = messages.parse()?;
    let mut file = BufWriter::new(File::create(path)?);
    file.write_all(&Head::new(SYMBOLS as u8).to_bytes())?;
    let mut market = Market::new(32, SYMBOLS);
    let mut record = Vec::new();
    let mut write = |time: u64, call: &Call| {
        record.clear();
        call.write(time, &mut record);
        file.write_all(&record)
    };
    for stock in &market.stocks {
        let add = Call::AddSymbol {
            symbol: &stock.symbol,
            round_lot: stock.round_lot,
            primary: b'N',
        };
        write(HALF_PAST_NINE, &add)?;
    }
    for (line, &letter) in (0..).zip(&LETTERS) {
        write(HALF_PAST_NINE, &Call::OpenLine { line, letter })?;
    }
    write(HALF_PAST_NINE, &Call::StartDay)?;
    let mut next = [1u32; LETTERS.len()];
    let mut written = 0;
    while written < messages {
        let line = market.draw_line();
        let count = market.draw_count(8);
        let drawn: Vec<Vec<u8>> = (0..count).map(|_| market.message(line)).collect();
        let block = build::block(next[line], &drawn);
        next[line] += count as u32;
        written += count as u64;
        let time =
            HALF_PAST_NINE + (u128::from(DAY) * u128::from(written) / u128::from(messages)) as u64;
        let line = line as u32;
        write(
            time,
            &Call::TakeBlock {
                line,
                block: &block,
                room: 180,
            },
        )?;
    }
    write(HALF_PAST_NINE + DAY, &Call::EndDay)?;
    file.flush()?;
    Ok(())
}
