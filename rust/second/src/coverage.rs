//! Counting which numbers, codes, flags, answers to queries, orders, cases of resent quotes, of closed
//! venues, of leaders, of halts, of snapshots and of the allowance a run of lists has reached.

mod closed;
mod finra;
mod halts;
mod leading;
mod prices;
mod resent;
mod snapshots;
mod ticks;

use std::collections::BTreeMap;
use std::fmt::{self, Display, Formatter};

use crate::build;
use crate::call::{Call, List};
use crate::compare::{lent_part, Observed};
use crate::quote_book::{Protected, Tried};
use crate::terms::{FINRA, STEP_LEN};
use crate::venue::{self, Converted};
use closed::Closed;
use finra::Finra;
use halts::Halts;
use leading::Leading;
use resent::Resent;
use snapshots::Snapshots;
use ticks::Ticks;

/// The numbers that each call can answer in a list.
const NUMBERS: [(&str, &[u8]); 15] = [
    ("make", &[0, 2]),
    ("add", &[0, 3, 4, 5, 6, 75]),
    ("open", &[0, 7, 8]),
    ("start", &[0, 11]),
    ("end", &[0, 12]),
    ("take", &[0, 9, 20, 21, 30, 31, 32, 33, 34, 35, 70, 86]),
    ("read", &[0, 9, 10]),
    ("protected", &[0, 10, 74]),
    ("convert_len", &[0, 78, 79]),
    ("convert", &[0, 78, 79, 80]),
    ("snapshot-len", &[0, 10]),
    ("snapshot", &[0, 10, 81]),
    ("order", &[0, 10, 74, 82, 83]),
    ("allow", &[0, 84, 85]),
    ("tick", &[0]),
];

/// How many letters a query must have looked at before it answered yes: the positions of the letters
/// that the lines of most lists have, D among them.
const LOOKED: &[u8] = &[1, 2, 3, 4, 5, 14, 16, 17, 26];

/// How many letters a query can look at before it answers yes: S, the nineteenth, has nothing.
const ANY_LOOKED: &[u8] = &[
    1, 2, 3, 4, 5, 6, 7, 8, 9, 10, 11, 12, 13, 14, 15, 16, 17, 18, 20, 21, 22, 23, 24, 25, 26,
];

/// What queries must have answered, or can answer: how many letters are looked at; about a price of
/// 0, yes or no.
const fn answers(looked: &'static [u8]) -> [(&'static str, &'static [u8]); 6] {
    [
        ("bids, yes", looked),
        ("bids, no", &[26]),
        ("offers, yes", looked),
        ("offers, no", &[26]),
        ("bids at 0", &[0, 1]),
        ("offers at 0", &[0]),
    ]
}

/// How many blocks runs have in lists. Four are rare there; the worked cases have them.
const RUNS: [(&str, &[u8]); 1] = [("convert", &[1, 2, 3])];

/// What orders must have: how many steps; in which of them D stands; whether lots are not found.
const ORDERS: [(&str, &[u8]); 6] = [
    ("bought in steps", &[0, 1, 2, 3, 4, 5]),
    ("sold in steps", &[0, 1, 2, 3, 4, 5]),
    ("bought of D in step", &[1, 2, 3]),
    ("sold to D in step", &[1, 2, 3]),
    ("bought, not found", &[0, 1]),
    ("sold, not found", &[0, 1]),
];

/// The codes that each type of message can get.
const CODES: [(&str, &[u8]); 11] = [
    ("C I", &[0, 41, 42, 43]),
    ("C T", &[0, 41, 42, 43]),
    ("C 5", &[0, 41, 42, 43]),
    ("C C", &[0, 41, 42, 43, 44]),
    ("C O", &[0, 41, 42, 43, 44]),
    ("Q K", &[0, 41, 42, 43, 44, 45, 46, 47, 60, 61, 62, 63, 64]),
    ("Q M", &[0, 41, 42, 43, 44, 45, 60, 61, 62, 63, 64]),
    ("Q T", &[0, 41, 42, 43, 44, 45, 60, 61, 62, 63, 64]),
    ("Q U", &[0, 41, 42, 43, 44, 45, 46, 47, 48, 49]),
    ("T S", &[0, 41, 42, 43, 45, 76, 77]),
    ("other", &[40]),
];

/// The flags that each type of message can set.
const FLAGS: [(&str, &[u8]); 7] = [
    ("C C", &[1, 2, 4, 8, 16, 32]),
    ("C O", &[1, 2, 4, 8, 16, 32]),
    ("Q K", &[1, 2, 16, 32]),
    ("Q M", &[16, 32]),
    ("Q T", &[16, 32]),
    ("Q U", &[1, 2, 4, 8, 16, 32]),
    ("T S", &[1, 2, 4, 8, 16, 32]),
];

/// How often each number, code, flag, answer, order and case was reached.
#[derive(Default)]
pub struct Coverage {
    calls: u64,
    numbers: Counts,
    codes: Counts,
    flags: Counts,
    answers: Counts,
    runs: Counts,
    orders: Counts,
    resent: Resent,
    closed: Closed,
    snapshots: Snapshots,
    finra: Finra,
    leading: Leading,
    halts: Halts,
    ticks: Ticks,
}

impl Coverage {
    /// Notes a list and what was observed at each of its calls.
    pub fn note(&mut self, list: &List, observed: &[Observed]) {
        self.start_list();
        self.leading.start_list();
        self.ticks.start_list();
        for (call, observed) in list.calls.iter().zip(observed) {
            self.note_call(call, observed);
            self.leading.note(&observed.publications);
        }
    }

    fn start_list(&mut self) {
        self.resent.start_list();
        self.closed.start_list();
        self.finra.start();
        self.halts.start_list();
    }

    fn note_call(&mut self, call: &Call, observed: &Observed) {
        self.calls += 1;
        let name = call_name(call);
        *self.numbers.entry((name, observed.number)).or_default() += 1;
        self.ticks.note(call, observed.number);
        match (call, observed.number) {
            (Call::Make { .. }, 0) => self.start_list(),
            (Call::StartDay, 0) => {
                self.resent.start_day();
                self.closed.start_day();
                self.finra.start();
                self.halts.start_day();
            }
            (Call::EndDay, 0) => self.halts.end_day(),
            (Call::AddSymbol { .. }, 0) => self.halts.add_symbol(),
            _ => {}
        }
        if let (Call::TakeBlock { block, .. }, 0 | 70) = (call, observed.number) {
            let messages = build::split(block).map_or(Vec::new(), |(_, messages)| messages);
            let answers = lent_part(&observed.buffer).chunks_exact(4);
            self.halts.start_block();
            for (at, (message, answer)) in messages.iter().zip(answers).enumerate() {
                let name = type_name(message);
                self.note_message(name, answer[1], answer[2]);
                self.closed.note(message, answer[1], answer[2]);
                self.finra.note(message, answer[1], answer[2]);
                self.halts.note(at, name, message, answer[1], answer[2]);
                if answer[1] == 0 || name == "Q K" && answer[1] >= 60 {
                    self.resent.note(message);
                }
            }
        }
        if let (Call::Convert { .. }, Some(Converted { number: 0, len })) =
            (call, observed.converted)
        {
            let run = &lent_part(&observed.buffer)[..len];
            let blocks = venue::blocks(run).count() as u8;
            *self.runs.entry((name, blocks)).or_default() += 1;
        }
        if let (Call::Snapshot { .. }, Some(size)) = (call, observed.snapshot) {
            self.snapshots
                .note(&lent_part(&observed.buffer)[..size.bytes]);
        }
        let asked = (call, observed.protected);
        if let (
            Call::IsProtected {
                symbol,
                side,
                price,
            },
            Some(answer),
        ) = asked
        {
            if answer.number == 0 {
                self.note_answer(*side, *price, answer);
                self.halts.ask(symbol);
            }
        }
        if let (Call::TryOrder { symbol, side, .. }, Some(told)) = (call, observed.tried) {
            if told.number == 0 {
                self.note_order(*side, told, lent_part(&observed.buffer));
                self.halts.try_order(symbol);
            }
        }
    }

    fn note_answer(&mut self, side: u8, price: u64, answer: Protected) {
        let name = match (side, answer.yes) {
            (b'B', true) => "bids, yes",
            (b'B', false) => "bids, no",
            (_, true) => "offers, yes",
            (_, false) => "offers, no",
        };
        *self.answers.entry((name, answer.looked)).or_default() += 1;
        if price == 0 {
            let name = if side == b'B' {
                "bids at 0"
            } else {
                "offers at 0"
            };
            let key = (name, u8::from(answer.yes));
            *self.answers.entry(key).or_default() += 1;
        }
    }

    fn note_order(&mut self, side: u8, told: Tried, steps: &[u8]) {
        let [counted, finra, unfilled] = match side {
            b'B' => [
                "bought in steps",
                "bought of D in step",
                "bought, not found",
            ],
            _ => ["sold in steps", "sold to D in step", "sold, not found"],
        };
        let mut note = |name, value| *self.orders.entry((name, value)).or_default() += 1;
        note(counted, told.steps);
        note(unfilled, u8::from(told.unfilled > 0));
        let mut letters = steps.chunks_exact(STEP_LEN).take(told.steps.into());
        if let Some(at) = letters.position(|step| step[0] == FINRA) {
            note(finra, at as u8 + 1);
        }
    }

    fn note_message(&mut self, name: &'static str, code: u8, flags: u8) {
        *self.codes.entry((name, code)).or_default() += 1;
        for flag in [1, 2, 4, 8, 16, 32] {
            if flags & flag != 0 {
                *self.flags.entry((name, flag)).or_default() += 1;
            }
        }
    }

    /// The number of calls noted.
    pub fn calls(&self) -> u64 {
        self.calls
    }

    /// What documents 01 and 02 let happen in a list and was not reached.
    pub fn missing(&self) -> Vec<String> {
        let mut missing = missing_in("number", &NUMBERS, &self.numbers);
        missing.extend(missing_in("code", &CODES, &self.codes));
        missing.extend(missing_in("flag", &FLAGS, &self.flags));
        missing.extend(self.resent.missing());
        missing.extend(self.halts.missing());
        missing.extend(self.ticks.missing());
        missing.extend(missing_in("answer", &answers(LOOKED), &self.answers));
        missing.extend(self.closed.missing());
        missing.extend(self.snapshots.missing());
        missing.extend(self.finra.missing());
        missing.extend(self.leading.missing());
        missing.extend(missing_in("blocks in a run", &RUNS, &self.runs));
        missing.extend(missing_in("order", &ORDERS, &self.orders));
        missing
    }

    /// What was reached although document 01 does not let it happen in a list.
    pub fn unforeseen(&self) -> Vec<String> {
        let mut unforeseen = unforeseen_in("number", &NUMBERS, &self.numbers);
        unforeseen.extend(unforeseen_in("code", &CODES, &self.codes));
        unforeseen.extend(unforeseen_in("flag", &FLAGS, &self.flags));
        unforeseen.extend(unforeseen_in("answer", &answers(ANY_LOOKED), &self.answers));
        unforeseen
    }
}

type Table = [(&'static str, &'static [u8])];
type Counts = BTreeMap<(&'static str, u8), u64>;

fn missing_in(what: &str, table: &Table, counts: &Counts) -> Vec<String> {
    let all = table
        .iter()
        .flat_map(|&(name, values)| values.iter().map(move |&value| (name, value)));
    all.filter(|key| !counts.contains_key(key))
        .map(|(name, value)| format!("{name}: {what} {value}"))
        .collect()
}

fn unforeseen_in(what: &str, table: &Table, counts: &Counts) -> Vec<String> {
    let foreseen = |name: &str, value: &u8| {
        table
            .iter()
            .any(|row| row.0 == name && row.1.contains(value))
    };
    counts
        .keys()
        .filter(|(name, value)| !foreseen(name, value))
        .map(|(name, value)| format!("{name}: {what} {value}"))
        .collect()
}

fn call_name(call: &Call) -> &'static str {
    match call {
        Call::Make { .. } => "make",
        Call::AddSymbol { .. } => "add",
        Call::OpenLine { .. } => "open",
        Call::StartDay => "start",
        Call::EndDay => "end",
        Call::TakeBlock { .. } => "take",
        Call::Read { .. } => "read",
        Call::IsProtected { .. } => "protected",
        Call::ConvertLen { .. } => "convert_len",
        Call::Convert { .. } => "convert",
        Call::SnapshotLen { .. } => "snapshot-len",
        Call::Snapshot { .. } => "snapshot",
        Call::TryOrder { .. } => "order",
        Call::SetAllowance { .. } => "allow",
        Call::Tick => "tick",
    }
}

fn type_name(message: &[u8]) -> &'static str {
    match message.get(..2) {
        Some(b"CI") => "C I",
        Some(b"CT") => "C T",
        Some(b"C5") => "C 5",
        Some(b"CC") => "C C",
        Some(b"CO") => "C O",
        Some(b"QK") => "Q K",
        Some(b"QM") => "Q M",
        Some(b"QT") => "Q T",
        Some(b"QU") => "Q U",
        Some(b"TS") => "T S",
        _ => "other",
    }
}

/// A row for each call and type: what was reached, and how often.
impl Display for Coverage {
    fn fmt(&self, f: &mut Formatter) -> fmt::Result {
        writeln!(f, "{} calls", self.calls)?;
        let tables = [
            ("numbers", &self.numbers),
            ("codes", &self.codes),
            ("flags", &self.flags),
            ("answers", &self.answers),
            ("blocks in a run", &self.runs),
            ("orders", &self.orders),
        ];
        for (what, counts) in tables {
            let mut last = "";
            for ((name, value), count) in counts {
                if *name != last {
                    write!(f, "\n{name} {what}:")?;
                    last = name;
                }
                write!(f, " {value} x{count}")?;
            }
        }
        write!(f, "{}{}", self.resent, self.closed)?;
        write!(f, "{}{}", self.finra, self.leading)?;
        writeln!(f, "{}{}{}", self.halts, self.snapshots, self.ticks)
    }
}
