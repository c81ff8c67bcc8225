//! Carrying out a recording's calls, one by one.

use quotebook::lent::{self, BLOCK_MAX, PUBLICATION_LEN};
use quotebook::log::Call;
use second::QuoteBook;

use crate::library::{carry_out, Done, Library};
use crate::message::{number, parts, symbol_of, Kind, Symbol};

/// The 96 bytes of six entries.
pub type Entries = [u8; PUBLICATION_LEN];

/// Six times none.
pub const NO_ENTRIES: Entries = {
    let mut entries = [0; PUBLICATION_LEN];
    let mut at = 0;
    while at < PUBLICATION_LEN {
        if at % 16 < 4 {
            entries[at] = b' ';
        }
        at += 1;
    }
    entries
};

/// A message of a taken block, and what became of it.
#[derive(Clone, Copy, PartialEq, Eq, Debug)]
pub struct Worked {
    /// Where it stands in its block.
    pub start: usize,
    pub end: usize,
    pub sequence: u32,
    pub code: u8,
    pub flags: u8,
    /// The place of the listed symbol that it names.
    pub symbol: Option<usize>,
    /// Whether all or its round part was accepted.
    pub is_in_force: bool,
}

/// A change of a symbol's entries.
#[derive(Clone, Copy, PartialEq, Eq, Debug)]
pub struct Change {
    /// The message of the block that made it; none if the call itself did.
    pub message: Option<usize>,
    /// The symbol's place, and the symbol: a make that is done lists none any more.
    pub symbol: usize,
    pub name: Symbol,
    pub before: Entries,
    pub after: Entries,
}

/// A book, and what the last call did to it.
pub struct Player {
    pub book: Library,
    /// The book that takes each message in a block of its own, so that the entries behind each message
    /// are seen. It has no allowance.
    steps: Option<Library>,
    pub done: Done,
    pub messages: Vec<Worked>,
    /// Of a player that goes step by step.
    pub changes: Vec<Change>,
    pub listed: Vec<Symbol>,
    published: Vec<Entries>,
    /// A message for which the book answers otherwise when it is alone in its block.
    pub torn: Option<usize>,
}

impl Player {
    /// A fresh book of n symbols. Only step by step are changes told.
    pub fn new(n: u8, by_steps: bool) -> Player {
        let book = Library::fresh(n);
        Player {
            steps: by_steps.then(|| book.clone()),
            book,
            done: Done::default(),
            messages: Vec::new(),
            changes: Vec::new(),
            listed: Vec::new(),
            published: Vec::new(),
            torn: None,
        }
    }

    /// Goes on with a book as it stood at a checkpoint, not step by step.
    pub fn resume(memory: Vec<u8>, listed: Vec<Symbol>) -> Player {
        let mut player = Player::new(1, false);
        player.book = Library { memory };
        player.listed = listed;
        player
    }

    /// The entries of a listed symbol, as they stand now.
    pub fn entries(&self, symbol: usize) -> Entries {
        entries(&self.book, &self.listed[symbol])
    }

    /// Carries out a call.
    pub fn play(&mut self, call: &Call) {
        self.messages.clear();
        self.changes.clear();
        self.done = carry_out(&mut self.book, call);
        let is_taken = matches!(self.done.number, 0 | 70);
        if !is_taken {
            return;
        }
        match *call {
            Call::TakeBlock { line, block, .. } => self.work(line, block),
            Call::Make { .. } | Call::StartDay => {
                self.carry_out_beside(call);
                self.compare(None, 0..self.listed.len());
                if let Call::Make { .. } = call {
                    self.listed.clear();
                    self.published.clear();
                }
            }
            Call::AddSymbol { symbol, .. } => {
                self.carry_out_beside(call);
                let symbol = symbol.try_into().expect("an added symbol has eleven bytes");
                self.listed.push(symbol);
                self.published.push(NO_ENTRIES);
            }
            Call::OpenLine { .. } | Call::EndDay => self.carry_out_beside(call),
            _ => {}
        }
    }

    fn carry_out_beside(&mut self, call: &Call) {
        if let Some(steps) = &mut self.steps {
            carry_out(steps, call);
        }
    }

    /// The messages of a block that was taken.
    fn work(&mut self, line: u32, block: &[u8]) {
        let first = number(block, 4, 4) as u32;
        for (i, (start, end)) in parts(block).into_iter().enumerate() {
            let message = &block[start..end];
            let (code, flags) = (self.done.filled[4 * i + 1], self.done.filled[4 * i + 2]);
            let kind = Kind::of(message);
            let is_partly = kind == Kind::RoundLot && (60..=64).contains(&code);
            let symbol = symbol_of(message)
                .and_then(|symbol| self.listed.iter().position(|listed| listed == symbol));
            let sequence = first.wrapping_add(i as u32);
            let worked = Worked {
                start,
                end,
                sequence,
                code,
                flags,
                symbol,
                is_in_force: code == 0 || is_partly,
            };
            self.messages.push(worked);
            let Some(steps) = &mut self.steps else {
                continue;
            };
            let mut alone = [0; BLOCK_MAX];
            let written = lent::write_block(message, &[message.len() as u32], sequence, &mut alone);
            let mut answer = [0; lent::ANSWER_LEN];
            steps.take_block(line, &alone[..written.len], &mut answer);
            if answer[1..3] != [code, flags] {
                self.torn = Some(i);
            }
            if worked.is_in_force {
                match symbol {
                    Some(symbol) => self.compare(Some(i), symbol..symbol + 1),
                    None if matches!(kind, Kind::FinraClose | Kind::FinraOpen) => {
                        self.compare(Some(i), 0..self.listed.len());
                    }
                    None => {}
                }
            }
        }
    }

    /// Sees what changed of these symbols.
    fn compare(&mut self, message: Option<usize>, symbols: std::ops::Range<usize>) {
        let Some(steps) = &self.steps else {
            return;
        };
        for symbol in symbols {
            let after = entries(steps, &self.listed[symbol]);
            let before = std::mem::replace(&mut self.published[symbol], after);
            if before != after {
                self.changes.push(Change {
                    message,
                    symbol,
                    name: self.listed[symbol],
                    before,
                    after,
                });
            }
        }
    }
}

/// What a book publishes for a symbol, none if it has no such symbol.
pub fn entries(book: &Library, symbol: &[u8]) -> Entries {
    let mut entries = NO_ENTRIES;
    book.read(symbol, &mut entries);
    entries
}
