//! One random list of calls on shelves and on one large book of the second implementation.

use std::collections::BTreeSet;

use second::compare::{compare, first_difference, lent_part, observe, Fresh, Observed};
use second::generate::from_environment;
use second::shrink::shrink;
use second::{generate, Call, List};

use super::shelves::{large, shelf, threads};

/// A shelf that lists are run on: what it is, the symbols of a list's book, and the calls of a list behind
/// those that set the book up.
pub struct Compared {
    pub name: &'static str,
    pub fresh: Fresh,
    pub symbols: u32,
    pub calls: usize,
}

/// The shelves: over books of 64 symbols, of 7 and of one, and on three threads, where a read of each symbol
/// behind each call takes longer.
pub const SHELVES: [Compared; 4] = [
    Compared {
        name: "shelf over books of 64",
        fresh: shelf::<64>,
        symbols: 500,
        calls: 400,
    },
    Compared {
        name: "shelf over books of 7",
        fresh: shelf::<7>,
        symbols: 500,
        calls: 400,
    },
    Compared {
        name: "shelf over books of one",
        fresh: shelf::<1>,
        symbols: 500,
        calls: 400,
    },
    Compared {
        name: "shelf over books of 8 on three threads",
        fresh: threads::<8, 2>,
        symbols: 70,
        calls: 200,
    },
];

/// What lists have reached: numbers by call, codes by type of message, and cases with names.
#[derive(Default)]
pub struct Reached {
    pub numbers: BTreeSet<(&'static str, u8)>,
    pub codes: BTreeSet<u8>,
    pub cases: BTreeSet<&'static str>,
    pub messages: usize,
}

impl Reached {
    fn note(&mut self, list: &List, observed: &[Observed]) {
        for (call, observed) in list.calls.iter().zip(observed) {
            self.numbers.insert((name(call), observed.number));
            let Call::TakeBlock { block, .. } = call else {
                continue;
            };
            let Some(report) = observed
                .report
                .filter(|report| matches!(report.number, 0 | 70))
            else {
                continue;
            };
            let messages = (report.accepted + report.partly + report.rejected) as usize;
            self.messages += messages;
            let answers = lent_part(&observed.buffer).chunks_exact(4).take(messages);
            let mut flags = 0;
            for answer in answers {
                self.codes.insert(answer[1]);
                flags |= answer[2];
            }
            match (&block[10 + 2 * messages..][..2], report.accepted, flags) {
                (b"CC", 1, 0) => self.case("FINRA Close without a flag"),
                (b"CC", 1, _) => self.case("FINRA Close with flags"),
                (b"CO", 1, 0) => self.case("FINRA Open without a flag"),
                (b"CO", 1, _) => self.case("FINRA Open with flags"),
                (b"CC" | b"CO", 0, _) => self.case("FINRA Close or Open rejected"),
                (b"CI" | b"CT" | b"C5", 1, _) => self.case("inquiry, integrity or test"),
                (b"TS", _, 1..) => self.case("a status, and flags"),
                _ => {}
            }
            if messages > 10 {
                self.case("more than ten messages");
            }
            if report.partly > 0 {
                self.case("partly accepted");
            }
        }
    }

    fn case(&mut self, case: &'static str) {
        self.cases.insert(case);
    }
}

fn name(call: &Call) -> &'static str {
    match call {
        Call::Make { .. } => "make",
        Call::AddSymbol { .. } => "add",
        Call::OpenLine { .. } => "open",
        Call::StartDay => "start",
        Call::EndDay => "end",
        Call::TakeBlock { .. } => "take",
        Call::Read { .. } => "read",
        Call::IsProtected { .. } => "protected",
        Call::ConvertLen { .. } => "convert_len",
        Call::Convert { .. } => "convert",
        Call::SnapshotLen { .. } => "snapshot-len",
        Call::Snapshot { .. } => "snapshot",
        Call::TryOrder { .. } => "order",
        Call::SetAllowance { .. } => "set",
        Call::Tick => "tick",
    }
}

/// Runs the list of a seed on a shelf. After every call number, report, every byte of and around the
/// buffer, all publications and all lines' records are those of one large book. A failure is told with a
/// short list of calls that reproduces it.
pub fn run(seed: u64, compared: &Compared, reached: &mut Reached) -> Result<(), String> {
    let Compared {
        name,
        fresh,
        symbols,
        calls,
    } = *compared;
    let list = generate::large(seed, symbols, symbols as usize + calls);
    let expected = observe(large, &list);
    reached.note(&list, &expected);
    let Some(difference) = first_difference(&expected, fresh, &list) else {
        return Ok(());
    };
    let failure = format!("seed {seed}: the {name} differs from one large book");
    if from_environment("SHRINK", 1) == 0 {
        return Err(format!("{failure}\n{difference}"));
    }
    let calls = list.calls[..=difference.at].to_vec();
    let until = List { n: list.n, calls };
    let short = shrink(&until, |list| compare(large, fresh, list).is_some());
    let difference = compare(large, fresh, &short).expect("a shrunk list still fails");
    Err(format!("{failure} on\n{short}{difference}"))
}
