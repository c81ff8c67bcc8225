//! What document 01 and docs/LAYOUT.md say of a call on memory of any bytes.

use quotebook::Code;
use second::snapshot::{decode, Snapshot};
use second::venue::{self, mistake};
use second::{build, Call, Converted, Protected, Report, SnapshotSize, Tried};

use super::guarded::Guarded;
use super::layout::{
    hint, in_page, is_book, is_letter, line, listed_page, page, record, ALLOWANCE, CHARGES, COUNT,
    DAY, ENTRIES, HINTS, KEYS, LINES, LOT, N, OPENING_LEN, PAGE_LEN, PRIMARY, SHARES, SLOTS,
    SYMBOL,
};
use super::reading::Reading;

/// The numbers that each call can answer.
pub const NUMBERS: [(&str, &[u8]); 15] = [
    ("make", &[0, 2]),
    ("add", &[0, 1, 3, 4, 5, 6, 75]),
    ("open", &[0, 1, 7, 8]),
    ("start", &[0, 1, 11]),
    ("end", &[0, 1, 12]),
    ("take", &[0, 1, 9, 20, 21, 30, 31, 32, 33, 34, 35, 70, 86]),
    ("read", &[0, 1, 9, 10]),
    ("protected", &[0, 1, 10, 74]),
    ("convert_len", &[0, 1, 78, 79]),
    ("convert", &[0, 1, 78, 79, 80]),
    ("snapshot-len", &[0, 1, 10]),
    ("snapshot", &[0, 1, 10, 81]),
    ("order", &[0, 1, 10, 74, 82, 83]),
    ("allow", &[0, 1, 84, 85]),
    ("tick", &[0, 1]),
];

/// The row of a call in the table.
pub fn row(call: &Call) -> usize {
    match call {
        Call::Make { .. } => 0,
        Call::AddSymbol { .. } => 1,
        Call::OpenLine { .. } => 2,
        Call::StartDay => 3,
        Call::EndDay => 4,
        Call::TakeBlock { .. } => 5,
        Call::Read { .. } => 6,
        Call::IsProtected { .. } => 7,
        Call::ConvertLen { .. } => 8,
        Call::Convert { .. } => 9,
        Call::SnapshotLen { .. } => 10,
        Call::Snapshot { .. } => 11,
        Call::TryOrder { .. } => 12,
        Call::SetAllowance { .. } => 13,
        Call::Tick => 14,
    }
}

/// Says what is wrong unless it is right.
pub fn ensure(right: bool, what: impl Into<String>) -> Result<(), String> {
    if right {
        Ok(())
    } else {
        Err(what.into())
    }
}

fn is_symbol(symbol: &[u8]) -> bool {
    let spaces = symbol.iter().rev().take_while(|&&byte| byte == b' ');
    let text = &symbol[..symbol.len() - spaces.count()];
    symbol.len() == 11 && symbol[0].is_ascii_uppercase() && text.iter().all(u8::is_ascii_graphic)
}

/// The number that the bytes of the memory give. None for a block that passes checks 1, 9 and 21:
/// the next checks read the block and its line alone, and the random lists compare them. None for a
/// conversion on a book: [`converted`] has its number.
pub fn number(memory: &[u8], call: &Call) -> Option<u8> {
    if let Call::Make { n } = call {
        let right = memory.len() == OPENING_LEN + PAGE_LEN * *n as usize;
        return Some(if right && (1..=64).contains(n) { 0 } else { 2 });
    }
    if !is_book(memory) {
        return Some(1);
    }
    let listed = |symbol: &[u8]| listed_page(memory, symbol).is_some();
    let is_open = |at: u32| at < LINES as u32 && is_letter(memory[line(at as usize).start]);
    let checks = match call {
        Call::Make { .. } => vec![],
        Call::AddSymbol {
            symbol,
            round_lot,
            primary,
        } => vec![
            (!is_symbol(symbol), 3),
            (![1, 10, 25, 50, 100].contains(round_lot), 6),
            (!is_letter(*primary), 75),
            (listed(symbol), 4),
            (memory[COUNT] == memory[N], 5),
        ],
        Call::OpenLine { line, letter } => {
            vec![(*line > 63 || !is_letter(*letter), 7), (is_open(*line), 8)]
        }
        Call::StartDay => vec![(memory[DAY] == 1, 11)],
        Call::EndDay => vec![(memory[DAY] == 0, 12)],
        Call::TakeBlock {
            line, answer_len, ..
        } => vec![(*answer_len < 180, 9), (!is_open(*line), 21)],
        Call::Read {
            symbol,
            publication_len,
        } => vec![
            (*publication_len < 96, 9),
            (!is_symbol(symbol) || !listed(symbol), 10),
        ],
        Call::IsProtected { symbol, side, .. } => vec![
            (!is_symbol(symbol) || !listed(symbol), 10),
            (!b"BS".contains(side), 74),
        ],
        // 78 to 80 are the converter's: foretold beside its length.
        Call::ConvertLen { .. } | Call::Convert { .. } => return None,
        Call::SnapshotLen { symbol } => vec![(!is_symbol(symbol) || !listed(symbol), 10)],
        Call::Snapshot { symbol, output_len } => vec![
            (!is_symbol(symbol) || !listed(symbol), 10),
            (
                snapshot(memory, symbol)
                    .is_some_and(|snapshot| *output_len < size(snapshot.letters.len()).1),
                81,
            ),
        ],
        Call::TryOrder {
            symbol,
            side,
            lots,
            steps_len,
        } => vec![
            (!is_symbol(symbol) || !listed(symbol), 10),
            (!b"BS".contains(side), 74),
            (!(1..=1_000_000).contains(lots), 82),
            (*steps_len < 325, 83),
        ],
        Call::SetAllowance { blocks, shares } => {
            let sum: u32 = shares.iter().map(|&share| u32::from(share)).sum();
            vec![
                (*blocks == 0 || *blocks > 255, 84),
                (shares.len() != LINES || sum > *blocks, 85),
            ]
        }
        Call::Tick => vec![],
    };
    let fault = checks.iter().find(|check| check.0);
    match (fault, call) {
        (Some(fault), _) => Some(fault.1),
        (None, Call::TakeBlock { .. }) => None,
        (None, _) => Some(0),
    }
}

/// Whether share and spare of a line are used. In any memory B 0 is no allowance, and the spare is B less
/// the shares, 0 if they are more.
pub fn is_used_up(memory: &[u8], at: usize) -> bool {
    let blocks = u32::from(memory[ALLOWANCE]);
    let share = |at: usize| u32::from(memory[SHARES + at]);
    let charged = |at: usize| u32::from(memory[CHARGES + at]);
    let spare = blocks.saturating_sub((0..LINES).map(share).sum());
    let of_spare = |at: usize| charged(at).saturating_sub(share(at));
    blocks > 0 && charged(at) >= share(at) && (0..LINES).map(of_spare).sum::<u32>() >= spare
}

/// What a query on memory of any bytes answers: by the quotes of the page, whatever entries it keeps.
pub fn protected(memory: &[u8], call: &Call, number: u8) -> Option<Protected> {
    let Call::IsProtected {
        symbol,
        side,
        price,
    } = call
    else {
        return None;
    };
    if number != 0 {
        return Some(Protected::refused(number));
    }
    let reading = Reading::of(&memory[page(listed_page(memory, symbol)?)]);
    let (yes, looked) = reading.protection(usize::from(*side == b'S'), *price);
    Some(Protected {
        number,
        yes,
        looked,
    })
}

/// What a conversion on memory of any bytes answers, and the run: by the lots of the listed pages, of
/// which 0 divides nothing.
pub fn converted(memory: &[u8], call: &Call) -> Option<(Converted, Vec<u8>)> {
    let (block, room) = match call {
        Call::ConvertLen { block } => (block, None),
        Call::Convert { block, output_len } => (block, Some(*output_len)),
        _ => return None,
    };
    if !is_book(memory) {
        return Some((Converted::refused(1), Vec::new()));
    }
    let Some(room) = room else {
        let told = venue::convert_len::<{ mistake::NONE }>(block);
        return Some((told, Vec::new()));
    };
    let lots = |symbol: &[u8; 11]| {
        let lot = memory[page(listed_page(memory, symbol)?).start + LOT];
        (lot > 0).then_some(u32::from(lot))
    };
    let mut run = vec![0; room];
    let told = venue::convert::<{ mistake::NONE }>(block, &lots, &mut run);
    run.truncate(told.len);
    Some((told, run))
}

/// What a snapshot of a page of any bytes tells: the entries that it keeps, without the third and
/// fourth byte of a national name, and the quote of each letter but D and S whose condition is not 0.
fn snapshot(memory: &[u8], symbol: &[u8]) -> Option<Snapshot> {
    let page = &memory[page(listed_page(memory, symbol)?)];
    let mut entries = page[ENTRIES].chunks_exact(16).map(|entry| {
        let mut bytes = [0; 16];
        bytes.copy_from_slice(entry);
        bytes
    });
    let mut entry = || entries.next().unwrap_or_default();
    let national = [entry(), entry()].map(|mut entry| {
        entry[2..4].copy_from_slice(b"  ");
        entry
    });
    Some(Snapshot {
        symbol: symbol.try_into().ok()?,
        national,
        finra: [entry(), entry()],
        letters: Reading::of(page).latest(),
    })
}

/// Blocks and bytes of a snapshot with so many letters.
fn size(letters: usize) -> (usize, usize) {
    let blocks = if letters > 13 { 2 } else { 1 };
    (blocks, 24 * blocks + 102 + 62 * letters + 68)
}

/// What a call about a snapshot tells on memory of any bytes.
pub fn snapshot_size(memory: &[u8], call: &Call, number: u8) -> Option<SnapshotSize> {
    let (Call::SnapshotLen { symbol } | Call::Snapshot { symbol, .. }) = call else {
        return None;
    };
    if number != 0 {
        return Some(SnapshotSize::refused(number));
    }
    let (blocks, bytes) = size(snapshot(memory, symbol)?.letters.len());
    Some(SnapshotSize {
        number,
        blocks,
        bytes,
    })
}

/// What an order on memory of any bytes reports, and its steps: by the quotes of the page too.
pub fn tried(memory: &[u8], call: &Call, number: u8) -> Option<(Tried, Vec<u8>)> {
    let Call::TryOrder {
        symbol, side, lots, ..
    } = call
    else {
        return None;
    };
    if number != 0 {
        return Some((Tried::refused(number), Vec::new()));
    }
    let reading = Reading::of(&memory[page(listed_page(memory, symbol)?)]);
    // B buys at the offers.
    let (steps, unfilled) = reading.order(usize::from(*side == b'B'), *lots);
    let told = Tried {
        number,
        steps: (steps.len() / 13) as u8,
        unfilled,
    };
    Some((told, steps))
}

/// The memory before and after a call, and the buffer that was lent to it.
pub struct Left<'a> {
    pub before: &'a [u8],
    pub after: &'a [u8],
    pub buffer_before: &'a [u8],
    pub buffer: &'a [u8],
}

impl Left<'_> {
    /// Looks at all that a call has left behind.
    pub fn check(&self, call: &Call, report: &Report) -> Result<(), String> {
        if !matches!(report.number, 0 | 70) {
            return self.check_refused(call, report);
        }
        match call {
            Call::Make { n } => ensure(self.after == Guarded::fresh(*n).bytes(), "no fresh book"),
            Call::AddSymbol {
                symbol,
                round_lot,
                primary,
            } => self.check_added(symbol, *round_lot, *primary),
            Call::OpenLine { line, letter } => self.check_line(*line as usize, *letter, (1, 0)),
            Call::StartDay => self.check_started(),
            Call::EndDay => ensure(self.after[DAY] == 0, "the day is open"),
            Call::TakeBlock { line, block, .. } => self.check_taken(*line as usize, block, report),
            Call::Read { symbol, .. } => self.check_read(symbol),
            Call::IsProtected { .. } | Call::ConvertLen { .. } | Call::SnapshotLen { .. } => {
                ensure(self.before == self.after, "a query wrote")
            }
            Call::Convert { .. } => self.check_converted(call),
            Call::Snapshot { symbol, .. } => self.check_snapshot(symbol),
            Call::TryOrder { .. } => self.check_order(call),
            Call::SetAllowance { blocks, shares } => {
                let mut set = self.before.to_vec();
                set[ALLOWANCE] = *blocks as u8;
                set[SHARES..CHARGES].copy_from_slice(shares);
                set[CHARGES..OPENING_LEN].fill(0);
                ensure(self.after == set, "a setting wrote otherwise")
            }
            Call::Tick => {
                let mut ticked = self.before.to_vec();
                if ticked[ALLOWANCE] != 0 {
                    ticked[CHARGES..OPENING_LEN].fill(0);
                }
                ensure(self.after == ticked, "a tick wrote otherwise")
            }
        }
    }

    /// An order writes its steps and nothing else.
    fn check_order(&self, call: &Call) -> Result<(), String> {
        ensure(self.before == self.after, "an order wrote into the book")?;
        let (_, steps) = tried(self.before, call, 0).ok_or("no order")?;
        let (filled, behind) = self.buffer.split_at(steps.len());
        ensure(filled == steps, format!("steps {filled:?}, not {steps:?}"))?;
        let kept = behind == &self.buffer_before[steps.len()..];
        ensure(kept, "a byte behind the steps was written")
    }

    /// A refused call changes nothing; a block's report has the line as it stands.
    fn check_refused(&self, call: &Call, report: &Report) -> Result<(), String> {
        ensure(self.before == self.after, "a refused call changed the book")?;
        let kept = self.buffer_before == self.buffer;
        ensure(kept, "a refused call wrote into its buffer")?;
        let mut expected = Report {
            number: report.number,
            ..Report::default()
        };
        if let (Call::TakeBlock { line, .. }, 20 | 30..) = (call, report.number) {
            (expected.expected, expected.count) = record(self.before, *line as usize);
        }
        ensure(*report == expected, format!("{report:?}, not {expected:?}"))
    }

    fn check_added(&self, symbol: &[u8], round_lot: u32, primary: u8) -> Result<(), String> {
        let count = usize::from(self.before[COUNT]);
        let added = &self.after[page(count)];
        ensure(usize::from(self.after[COUNT]) == count + 1, "not counted")?;
        ensure(added[SYMBOL] == *symbol, "the symbol is not written")?;
        ensure(u32::from(added[LOT]) == round_lot, "the lot is not written")?;
        ensure(added[PRIMARY] == primary, "the letter is not written")?;
        ensure(is_blank(added), "the page is not empty")?;
        // No hints on the page itself; that of the symbol, on the first page, tells where it is.
        let mut hinted = self.before.to_vec();
        hinted[in_page(count, HINTS)].fill(0);
        hinted[hint(symbol)] = count as u8;
        self.check_hints(&hinted)
    }

    /// The hints of every page are those of another book.
    fn check_hints(&self, other: &[u8]) -> Result<(), String> {
        for at in 0..usize::from(self.after[N]) {
            let same = self.after[in_page(at, HINTS)] == other[in_page(at, HINTS)];
            ensure(same, format!("the hints of page {at}"))?;
        }
        Ok(())
    }

    fn check_line(&self, at: usize, letter: u8, expected: (u32, u64)) -> Result<(), String> {
        let right = self.after[line(at).start] == letter && record(self.after, at) == expected;
        ensure(right, format!("the record of line {at}"))
    }

    fn check_started(&self) -> Result<(), String> {
        ensure(self.after[DAY] == 1, "the day is not open")?;
        self.check_charges_kept()?;
        for at in 0..LINES {
            self.check_line(at, self.before[line(at).start], (1, 0))?;
        }
        for at in 0..usize::from(self.after[N]) {
            ensure(is_blank(&self.after[page(at)]), format!("page {at} stands"))?;
        }
        self.check_hints(self.before)
    }

    fn check_charges_kept(&self) -> Result<(), String> {
        let kept = self.before[ALLOWANCE..OPENING_LEN] == self.after[ALLOWANCE..OPENING_LEN];
        ensure(kept, "the allowance or its charges changed")
    }

    /// A block was not refused with 86, and one more is charged to its line.
    fn check_charged(&self, at: usize) -> Result<(), String> {
        if self.before[ALLOWANCE] == 0 {
            return self.check_charges_kept();
        }
        let left = !is_used_up(self.before, at);
        ensure(left, "taken with share and spare used")?;
        let mut one_more = self.before[ALLOWANCE..OPENING_LEN].to_vec();
        one_more[CHARGES - ALLOWANCE + at] += 1;
        let right = self.after[ALLOWANCE..OPENING_LEN] == one_more;
        ensure(right, "the charge of the block")
    }

    /// Reading copies the entries that the page keeps.
    fn check_read(&self, symbol: &[u8]) -> Result<(), String> {
        let listed = listed_page(self.before, symbol).ok_or("no such page")?;
        let (publication, behind) = self.buffer.split_at(96);
        let kept = &self.before[in_page(listed, ENTRIES)];
        ensure(publication == kept, "not the entries that the page keeps")?;
        let behind_kept = behind == &self.buffer_before[96..];
        ensure(behind_kept, "a byte behind the publication was written")
    }

    /// The run by the listed lots, and nothing behind it.
    fn check_converted(&self, call: &Call) -> Result<(), String> {
        ensure(self.before == self.after, "a conversion wrote the book")?;
        let (_, run) = converted(self.before, call).ok_or("no conversion")?;
        let (written, behind) = self.buffer.split_at(run.len());
        ensure(written == run, "another run")?;
        let behind_kept = behind == &self.buffer_before[run.len()..];
        ensure(behind_kept, "a byte behind the run was written")
    }

    /// The snapshot of what the page keeps and says, and nothing behind it.
    fn check_snapshot(&self, symbol: &[u8]) -> Result<(), String> {
        ensure(self.before == self.after, "a snapshot wrote into the book")?;
        let expected = snapshot(self.before, symbol).ok_or("no such page")?;
        let (_, bytes) = size(expected.letters.len());
        let told = decode(&self.buffer[..bytes]);
        ensure(told == Ok(expected), format!("{told:?} is not the page's"))?;
        let behind_kept = self.buffer[bytes..] == self.buffer_before[bytes..];
        ensure(behind_kept, "a byte behind the snapshot was written")
    }

    /// The report, the line's record, every answer, and each page as its reading follows the messages.
    fn check_taken(&self, at: usize, block: &[u8], report: &Report) -> Result<(), String> {
        let (sequence, messages) = build::split(block).ok_or("no block")?;
        let c = messages.len();
        let (mut expected, mut count) = record(self.before, at);
        let mut gap = 0;
        if !matches!(&messages[0][..2], b"CI" | b"CT" | b"C5") {
            ensure(self.before[DAY] == 1, "taken while the day was closed")?;
            gap = sequence.wrapping_sub(expected);
            expected = sequence.wrapping_add(c as u32);
            count = count.wrapping_add(c as u64);
            self.check_charged(at)?;
        } else {
            self.check_charges_kept()?;
        }
        self.check_line(at, self.before[line(at).start], (expected, count))?;
        let (answers, behind) = self.buffer.split_at(4 * c);
        let mut expected = Report {
            number: if gap == 0 { 0 } else { 70 },
            gap,
            expected,
            count,
            ..Report::default()
        };
        for (message, answer) in messages.iter().zip(answers.chunks_exact(4)) {
            match (&message[..2], answer[1]) {
                (_, 0) => expected.accepted += 1,
                (b"QK", 60..) => expected.partly += 1,
                _ => expected.rejected += 1,
            }
        }
        ensure(*report == expected, format!("{report:?}, not {expected:?}"))?;
        let behind_kept = behind == &self.buffer_before[4 * c..];
        ensure(behind_kept, "a byte behind the answers was written")?;
        let mut pages = Pages::of(self.before);
        for (i, (message, answer)) in messages.iter().zip(answers.chunks_exact(4)).enumerate() {
            ensure(
                [answer[0], answer[3]] == [i as u8, 0],
                format!("{answer:?}"),
            )?;
            let followed = pages.follow(message, answer[1], answer[2]);
            followed.map_err(|what| format!("message {i}: {what}"))?;
        }
        pages.check(self.after)?;
        self.check_hints(self.before)
    }
}

/// No quote and no level, whatever reads them: zeros from the slots on, and six times none.
fn is_blank(page: &[u8]) -> bool {
    let reading = Reading::of(page);
    let zeros = page[SLOTS.start..].iter().all(|&byte| byte == 0);
    zeros && reading.is_empty() && page[ENTRIES] == reading.entries()
}

/// The pages of a book as the messages of a block change them.
struct Pages<'a> {
    before: &'a [u8],
    pages: Vec<Followed>,
}

/// A page's reading, the entries that it keeps and its keys.
struct Followed {
    reading: Reading,
    entries: [u8; 96],
    keys: Vec<u8>,
}

impl Pages<'_> {
    fn of(before: &[u8]) -> Pages<'_> {
        let pages = (0..usize::from(before[N])).map(|at| {
            let mut entries = [0; 96];
            entries.copy_from_slice(&before[in_page(at, ENTRIES)]);
            Followed {
                reading: Reading::of(&before[page(at)]),
                entries,
                keys: before[in_page(at, KEYS)].to_vec(),
            }
        });
        Pages {
            before,
            pages: pages.collect(),
        }
    }

    /// Follows one message by its code. Codes 0, 49, 60 to 64, 76 and 77 are the page's and are foretold;
    /// any other code leaves every page alone. "An accepted part leaves them as worked out from the
    /// page's quotes", whatever entries the page kept.
    fn follow(&mut self, message: &[u8], code: u8, flags: u8) -> Result<(), String> {
        Code::try_from(code).map_err(|code| format!("code {code}"))?;
        let kind = &message[..2];
        let concerned = match kind {
            b"CC" | b"CO" if code == 0 => 0..self.pages.len(),
            b"QK" | b"QM" | b"QT" | b"QU" | b"TS" if code == 0 || code >= 49 => {
                let named = listed_page(self.before, &message[20..31]).ok_or("not listed")?;
                named..named + 1
            }
            _ => 0..0,
        };
        let mut changed = 0;
        for at in concerned {
            let Followed {
                reading,
                entries,
                keys,
            } = &mut self.pages[at];
            let foretold = reading.take(message);
            ensure(code == foretold, format!("code {code}, not {foretold}"))?;
            if code != 0 && kind != b"QK" {
                continue;
            }
            for (at, key) in reading.written_keys(message, code) {
                keys[at.start - KEYS.start..at.end - KEYS.start].copy_from_slice(&key);
            }
            let worked_out = reading.entries();
            // The flags go by listed symbols.
            if at < usize::from(self.before[COUNT]) {
                changed |= changes(entries, &worked_out);
            }
            *entries = worked_out;
        }
        ensure(flags == changed, format!("flags {flags}, not {changed}"))
    }

    fn check(&self, after: &[u8]) -> Result<(), String> {
        for (at, followed) in self.pages.iter().enumerate() {
            let (now, reading) = (Reading::of(&after[page(at)]), &followed.reading);
            if !now.agrees(reading) {
                return Err(format!("page {at} reads\n{now:?}, not\n{reading:?}"));
            }
            let (kept, entries) = (&after[in_page(at, ENTRIES)], followed.entries);
            if kept != entries {
                return Err(format!("page {at} keeps {kept:?}, not {entries:?}"));
            }
            let same_keys = after[in_page(at, KEYS)] == followed.keys;
            ensure(same_keys, format!("the keys of page {at}"))?;
        }
        Ok(())
    }
}

/// A bit for each entry that changed.
fn changes(old: &[u8], new: &[u8]) -> u8 {
    let pairs = old.chunks_exact(16).zip(new.chunks_exact(16));
    let flags = pairs.enumerate();
    flags.fold(0, |flags, (i, (old, new))| {
        flags | u8::from(old != new) << i
    })
}
