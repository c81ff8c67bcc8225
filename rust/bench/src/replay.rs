//! Replaying a stream on a book: checked, measured as a whole, and measured call by call.

use std::time::Instant;

use crate::stream::Stream;
use second::terms::{ANSWER_LEN, PUBLICATION_LEN};
use second::{QuoteBook, Report};

/// What a measured day leaves: the sums of the reports and the publications.
#[derive(Clone, PartialEq, Eq, Debug, Default)]
pub struct Outcome {
    /// Messages accepted, partly accepted and rejected.
    pub messages: [u64; 3],
    /// Messages that changed a national, a FINRA and an odd entry; 0 if that was not looked at.
    pub changing: [u64; 3],
    /// The publications of all symbols, one behind the other.
    pub publications: Vec<u8>,
}

impl Outcome {
    #[inline]
    fn count(&mut self, report: &Report) {
        self.messages[0] += u64::from(report.accepted);
        self.messages[1] += u64::from(report.partly);
        self.messages[2] += u64::from(report.rejected);
    }

    fn read(&mut self, book: &impl QuoteBook, stream: &Stream) {
        for (symbol, _) in &stream.symbols {
            let mut publication = [0; PUBLICATION_LEN];
            assert_eq!(book.read(symbol, &mut publication), 0, "a symbol is read");
            self.publications.extend(publication);
        }
    }
}

/// Ends the day that may be open, starts it anew and brings the book to where the measured blocks
/// begin.
pub fn warm(book: &mut impl QuoteBook, stream: &Stream) {
    book.end_day();
    assert_eq!(book.start_day(), 0, "the day starts");
    let mut answer = [0; ANSWER_LEN];
    for (line, block) in stream.warming() {
        assert_eq!(book.take_block(line, block, &mut answer).number, 0);
    }
}

/// The day on three books at once; every report and every answer has to be the same on all.
pub fn checked(
    first: &mut impl QuoteBook,
    second: &mut impl QuoteBook,
    third: &mut impl QuoteBook,
    stream: &Stream,
) -> Result<Outcome, String> {
    warm(first, stream);
    warm(second, stream);
    warm(third, stream);
    let mut outcome = Outcome::default();
    for (at, (line, block)) in stream.measured().enumerate() {
        let mut answers = [[0xA5; ANSWER_LEN + 20]; 3];
        let [a, b, c] = &mut answers;
        let reports = [
            first.take_block(line, block, a),
            second.take_block(line, block, b),
            third.take_block(line, block, c),
        ];
        if reports[1..] != [reports[0]; 2] || answers[1..] != [answers[0]; 2] {
            return Err(format!("block {at} is answered differently: {reports:?}"));
        }
        if reports[0].number != 0 {
            return Err(format!("block {at} is refused: {:?}", reports[0]));
        }
        outcome.count(&reports[0]);
        for answer in answers[0].chunks_exact(4).take(usize::from(block[1])) {
            for (entry, sum) in outcome.changing.iter_mut().enumerate() {
                *sum += u64::from(answer[2] >> (2 * entry) & 3 != 0);
            }
        }
    }
    outcome.read(first, stream);
    for publications in [read_all(second, stream), read_all(third, stream)] {
        if publications != outcome.publications {
            return Err("the last publications differ".to_string());
        }
    }
    Ok(outcome)
}

fn read_all(book: &impl QuoteBook, stream: &Stream) -> Vec<u8> {
    let mut outcome = Outcome::default();
    outcome.read(book, stream);
    outcome.publications
}

/// Messages of a slice, about.
pub const SLICE: usize = 500;

/// The nanoseconds that a book takes for each slice of the measured blocks. The slices are the same
/// in every round, so that a round in which something else had the processor spoils only some.
pub fn timed(book: &mut impl QuoteBook, stream: &Stream, slices: &mut Vec<u64>) -> Outcome {
    warm(book, stream);
    slices.clear();
    slices.reserve(stream.blocks());
    let blocks_of_a_slice = SLICE * stream.blocks() / stream.messages();
    let mut outcome = Outcome::default();
    let mut answer = [0; ANSWER_LEN];
    let mut blocks = stream.measured().peekable();
    while blocks.peek().is_some() {
        let began = Instant::now();
        for (line, block) in blocks.by_ref().take(blocks_of_a_slice) {
            outcome.count(&book.take_block(line, block, &mut answer));
        }
        slices.push(began.elapsed().as_nanos() as u64);
    }
    outcome.read(book, stream);
    outcome
}

/// The nanoseconds of each call, the clock's own included.
pub fn timed_calls(book: &mut impl QuoteBook, stream: &Stream, calls: &mut Vec<u64>) -> Outcome {
    warm(book, stream);
    calls.clear();
    calls.reserve(stream.blocks());
    let mut outcome = Outcome::default();
    let mut answer = [0; ANSWER_LEN];
    for (line, block) in stream.measured() {
        let began = Instant::now();
        let report = book.take_block(line, block, &mut answer);
        calls.push(began.elapsed().as_nanos() as u64);
        outcome.count(&report);
    }
    outcome.read(book, stream);
    outcome
}

/// What a measured call of one message is: its place in [`KINDS`], and whether it changes an entry.
pub type Told = (usize, bool);

/// The kinds of messages that calls are told apart by.
pub const KINDS: [&str; 4] = ["Q K without odd lots", "Q K with odd lots", "Q M", "Q U"];

/// What each measured call of a stream of single messages is; none for a spoiled message.
pub fn told_calls(book: &mut impl QuoteBook, stream: &Stream) -> Vec<Option<Told>> {
    warm(book, stream);
    let mut answer = [0; ANSWER_LEN];
    let calls = stream.measured().map(|(line, block)| {
        book.take_block(line, block, &mut answer);
        let message = &block[12..];
        let kind = match (&message[..2], message.len()) {
            (b"QK", 60) => 0,
            (b"QK", _) => 1,
            (b"QM", _) => 2,
            (b"QU", _) => 3,
            _ => return None,
        };
        (answer[1] == 0).then_some((kind, answer[2] != 0))
    });
    calls.collect()
}

/// What [`timed_calls`] sees of a call that does nothing: the middle of many.
pub fn clock_cost() -> u64 {
    let mut pairs: Vec<u64> = (0..100_001)
        .map(|_| Instant::now().elapsed().as_nanos() as u64)
        .collect();
    pairs.sort_unstable();
    pairs[pairs.len() / 2]
}

#[cfg(test)]
mod tests {
    use super::*;
    use crate::library::Library;
    use crate::stream::{Kind, Size};
    use second::engine::{mistake, Book, Recompute};
    use second::Engine;

    fn differs<const MISTAKE: u8>() -> bool {
        let stream = Stream::new(8, Kind::Mixed, Size::Full, 5_000);
        let mut library = Library::fresh(8);
        let mut engine = Engine::fresh(8).expect("n is 1 to 64");
        let mut third = Book::<Recompute, MISTAKE>::fresh(8).expect("n is 1 to 64");
        stream.set_up(&mut library);
        stream.set_up(&mut engine);
        stream.set_up(&mut third);
        checked(&mut library, &mut engine, &mut third, &stream).is_err()
    }

    #[test]
    fn a_wrong_book_is_found() {
        assert!(!differs::<{ mistake::NONE }>());
        assert!(differs::<{ mistake::TIME_BEFORE_SIZE }>());
        assert!(differs::<{ mistake::ODD_AT_NATIONAL }>());
        assert!(differs::<{ mistake::ODD_FLAGS_LOST }>());
        assert!(differs::<{ mistake::COUNTS_INVENTED }>());
        assert!(differs::<{ mistake::ANSWER_CLEARED }>());
        assert!(differs::<{ mistake::ROUND_PART_LOST }>());
    }
}
