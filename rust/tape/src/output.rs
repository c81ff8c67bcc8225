//! What the tape program prints, read back as values.

use std::str::{FromStr, SplitWhitespace};

/// All that the program printed.
#[derive(Clone, PartialEq, Eq, Debug, Default)]
pub struct Output {
    /// The blocks in their order.
    pub blocks: Vec<Block>,
    /// The symbols in the order added.
    pub symbols: Vec<Symbol>,
    /// The last line, if the program stopped early: `cut`, or `setup` and a number.
    pub stopped: Option<String>,
}

/// A `block` line and the `msg` lines that follow it.
#[derive(Clone, PartialEq, Eq, Debug)]
pub struct Block {
    /// The line.
    pub line: u8,
    /// 0, 70 or the refusal.
    pub number: u8,
    /// How many numbers were missed.
    pub gap: u32,
    /// The line's next expected number.
    pub expected: u32,
    /// Its messages in their order.
    pub messages: Vec<Message>,
}

/// A `msg` line.
#[derive(Clone, Copy, PartialEq, Eq, Debug)]
pub struct Message {
    /// The message's place in its block.
    pub index: u8,
    /// 0 or what was wrong.
    pub code: u8,
    /// Which entries changed.
    pub flags: u8,
}

/// A `sym` line and its six entries.
#[derive(Clone, PartialEq, Eq, Debug)]
pub struct Symbol {
    /// The symbol without trailing spaces.
    pub name: String,
    /// NB, NO, FB, FO, OB and OO; `None` where the program prints none.
    pub entries: [Option<Entry>; 6],
}

/// A published entry.
#[derive(Clone, PartialEq, Eq, Debug)]
pub struct Entry {
    /// The letter, or FINRA's maker.
    pub name: String,
    /// The condition, or `-`.
    pub condition: String,
    /// The price in millionths.
    pub price: u64,
    /// Round lots, or of odd lots shares.
    pub size: u32,
}

/// A line that the tape program does not print.
#[derive(Clone, PartialEq, Eq, Debug)]
pub struct NoOutput(pub String);

impl FromStr for Output {
    type Err = NoOutput;

    fn from_str(text: &str) -> Result<Output, NoOutput> {
        let mut output = Output::default();
        for line in text.lines() {
            read_line(&mut output, line).ok_or_else(|| NoOutput(line.to_string()))?;
        }
        Ok(output)
    }
}

fn read_line(output: &mut Output, line: &str) -> Option<()> {
    let mut words = line.split_whitespace();
    match words.next()? {
        "block" => output.blocks.push(Block {
            line: next(&mut words)?,
            number: next(&mut words)?,
            gap: next(&mut words)?,
            expected: next(&mut words)?,
            messages: Vec::new(),
        }),
        "msg" => output.blocks.last_mut()?.messages.push(Message {
            index: next(&mut words)?,
            code: next(&mut words)?,
            flags: next(&mut words)?,
        }),
        "sym" => output.symbols.push(Symbol {
            name: next(&mut words)?,
            entries: Default::default(),
        }),
        "setup" | "cut" => output.stopped = Some(line.to_string()),
        kind => {
            let at = ENTRIES.iter().position(|&entry| entry == kind)?;
            output.symbols.last_mut()?.entries[at] = entry(&mut words)?;
        }
    }
    Some(())
}

/// What the entries are called, in the order of the change flags' bits.
pub const ENTRIES: [&str; 6] = ["NB", "NO", "FB", "FO", "OB", "OO"];

fn entry(words: &mut SplitWhitespace) -> Option<Option<Entry>> {
    let entry = Entry {
        name: next(words)?,
        condition: next(words)?,
        price: next(words)?,
        size: next(words)?,
    };
    Some((entry.name != "-").then_some(entry))
}

fn next<T: FromStr>(words: &mut SplitWhitespace) -> Option<T> {
    words.next()?.parse().ok()
}
