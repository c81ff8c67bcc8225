//! Writes random lists of calls with the reviewer's answers, as terms of the definitions' language,
//! for `tests/definitions`.
//!
//! usage: definitions FIRST_SEED LISTS CALLS SYMBOLS MESSAGES each|end
//!
//! Writes a line for each list: its seed, n, the calls, and their answers, with tabs between. An
//! answer is the seven numbers of a report, the two numbers of a query, an order or a snapshot, left
//! out where both are 0, and the bytes that the call fills. Only lists of a book of
//! at most SYMBOLS symbols and with at most MESSAGES messages in taken blocks are written. Behind
//! each block that is taken, or behind the last call alone, every symbol that the list adds is read.
//! What the lists reach is told on standard error.

use second::compare::{lent_part, observe, Observed};
use second::coverage::Coverage;
use second::terms::{PUBLICATION_LEN, STEP_LEN};
use second::{generate, Call, List, Protected, QuoteBook, Report, Reviewer, SnapshotSize, Tried};

fn word(at: usize) -> String {
    let usage = "usage: definitions FIRST_SEED LISTS CALLS SYMBOLS MESSAGES each|end";
    std::env::args().nth(at).expect(usage)
}

fn number(at: usize) -> usize {
    word(at).parse().expect("a number")
}

fn main() {
    let (first, lists, calls) = (number(1) as u64, number(2), number(3));
    let (symbols, messages) = (number(4), number(5));
    let each = word(6) == "each";
    let mut coverage = Coverage::default();
    let mut written = 0;
    for seed in first.. {
        if written == lists {
            break;
        }
        let list = with_reads(&generate::list(seed, calls), each);
        let observed = observe(reviewer, &list);
        let worked: usize = observed.iter().map(messages_of).sum();
        if list.n as usize > symbols || worked > messages {
            continue;
        }
        written += 1;
        coverage.note(&list, &observed);
        let calls: Vec<String> = list.calls.iter().map(term).collect();
        let answers: Vec<String> = observed.iter().map(|one| row(&told(one))).collect();
        println!("{seed}\t{}\t{}\t{}", list.n, row(&calls), row(&answers));
    }
    eprintln!("{coverage}");
}

fn reviewer(n: u32) -> Box<dyn QuoteBook> {
    Box::new(Reviewer::fresh(n).expect("n is 1 to 64"))
}

/// The list with reads of the symbols that it has added. Conversions are left out: their blocks take the
/// prover too many steps, and the rows of crate `venuerun` have them.
fn with_reads(list: &List, each: bool) -> List {
    let answers = observe(reviewer, list);
    let mut calls = Vec::new();
    let mut reads = Vec::new();
    for (call, observed) in list.calls.iter().zip(answers) {
        if matches!(call, Call::ConvertLen { .. } | Call::Convert { .. }) {
            continue;
        }
        calls.push(call.clone());
        match call {
            Call::AddSymbol { symbol, .. } => {
                let read = Call::Read {
                    symbol: symbol.clone(),
                    publication_len: PUBLICATION_LEN,
                };
                if !reads.contains(&read) {
                    reads.push(read);
                }
            }
            Call::TakeBlock { .. } if each && matches!(observed.number, 0 | 70) => {
                calls.extend(reads.clone());
            }
            _ => {}
        }
    }
    calls.extend(reads);
    List { n: list.n, calls }
}

/// How many messages a call has worked.
fn messages_of(observed: &Observed) -> usize {
    let report = observed.report.unwrap_or_default();
    (report.accepted + report.partly + report.rejected) as usize
}

/// The seven numbers of an answer, then the numbers of a query, an order or a snapshot, and the bytes that
/// the call filled.
fn told(observed: &Observed) -> Vec<u64> {
    let bare = Report {
        number: observed.number,
        ..Report::default()
    };
    let filled = match observed.report {
        Some(_) => 4 * messages_of(observed),
        None if observed.tried.is_some() => {
            STEP_LEN * observed.tried.map_or(0, |told| told.steps.into())
        }
        // The call that tells the length lends no buffer.
        None if observed.snapshot.is_some() && !observed.buffer.is_empty() => {
            observed.snapshot.map_or(0, |told| told.bytes)
        }
        None if observed.number == 0 && !observed.buffer.is_empty() => PUBLICATION_LEN,
        None => 0,
    };
    let mut told = observed.report.unwrap_or(bare).fields().to_vec();
    if let Some(Protected { yes, looked, .. }) = observed.protected {
        if yes || looked > 0 {
            told.extend([u64::from(yes), u64::from(looked)]);
        }
    }
    if let Some(SnapshotSize { blocks, bytes, .. }) = observed.snapshot {
        if blocks > 0 {
            told.extend([blocks as u64, bytes as u64]);
        }
    }
    if let Some(Tried {
        steps, unfilled, ..
    }) = observed.tried
    {
        if steps > 0 || unfilled > 0 {
            told.extend([u64::from(steps), u64::from(unfilled)]);
        }
    }
    if filled > 0 {
        let bytes = &lent_part(&observed.buffer)[..filled];
        told.extend(bytes.iter().map(|&byte| u64::from(byte)));
    }
    told
}

fn term(call: &Call) -> String {
    match call {
        Call::Make { n } => format!("make {n}"),
        Call::AddSymbol {
            symbol,
            round_lot,
            primary,
        } => format!("add {} {round_lot} {primary}", row(symbol)),
        Call::OpenLine { line, letter } => format!("open_line {line} {letter}"),
        Call::StartDay => "start_day".to_string(),
        Call::EndDay => "end_day".to_string(),
        Call::TakeBlock {
            line,
            block,
            answer_len,
        } => format!("take {line} {} {answer_len}", row(block)),
        Call::Read {
            symbol,
            publication_len,
        } => format!("read {} {publication_len}", row(symbol)),
        Call::IsProtected {
            symbol,
            side,
            price,
        } => format!("protected {} {side} {price}", row(symbol)),
        Call::ConvertLen { .. } | Call::Convert { .. } => unreachable!("conversions are left out"),
        Call::SnapshotLen { symbol } => format!("snapshot_len {}", row(symbol)),
        Call::Snapshot { symbol, output_len } => {
            format!("snapshot {} {output_len}", row(symbol))
        }
        Call::TryOrder {
            symbol,
            side,
            lots,
            steps_len,
        } => format!("try_order {} {side} {lots} {steps_len}", row(symbol)),
        Call::SetAllowance { blocks, shares } => format!("set_allowance {blocks} {}", row(shares)),
        Call::Tick => "tick".to_string(),
    }
}

/// A list of the language.
fn row<T: ToString>(terms: &[T]) -> String {
    let mut row = String::from("(");
    for term in terms {
        row.push_str(&term.to_string());
        row.push_str(" ∷ ");
    }
    row + "[])"
}
