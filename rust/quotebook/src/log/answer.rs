//! What a replay tells, and the answers that it writes.

use crate::number::Number;

/// With less room than this left in its output, a replay stops.
pub const ANSWER_MOST: usize = 3696;

/// The numbers that an answer begins with, and their bytes.
const WORDS: usize = 12;
const WORDS_LEN: usize = 8 * WORDS;

/// What [`lent::replay`](crate::lent::replay) tells.
#[derive(Clone, Copy, PartialEq, Eq, Debug)]
pub struct Replayed {
    /// Why it stopped.
    pub number: Number,
    /// Where it stopped in the log: the calls before are carried out.
    pub place: usize,
    /// How many bytes of answers stand in the output.
    pub written: usize,
}

impl Replayed {
    pub(crate) fn from_fields(number: Number, fields: [u64; 3]) -> Replayed {
        let [_, place, written] = fields;
        Replayed {
            number,
            place: place as usize,
            written: written as usize,
        }
    }
}

/// The answer of one call, as a replay writes it.
#[derive(Clone, Copy, PartialEq, Eq, Debug)]
pub struct LoggedAnswer<'a> {
    /// Number, gap, next expected, count, accepted, partly accepted and rejected; only a block has the
    /// last six.
    pub report: [u64; 7],
    /// What a query tells: yes or no, and the letters looked at; blocks and bytes of a snapshot; steps of
    /// an order and the lots not found; nothing and the bytes of a run.
    pub told: [u64; 2],
    /// What a taken block filled of its answer buffer.
    pub answers: &'a [u8],
    /// What a read filled of its publication buffer.
    pub publication: &'a [u8],
    /// What any other call filled of its output.
    pub output: &'a [u8],
}

/// The answers that a replay has written.
#[derive(Clone, Debug)]
pub struct Answers<'a>(&'a [u8]);

impl<'a> Answers<'a> {
    /// The answers in the written part of an output.
    pub fn new(written: &'a [u8]) -> Answers<'a> {
        Answers(written)
    }

    fn part(&mut self, len: u64) -> Option<&'a [u8]> {
        let (part, left) = self.0.split_at_checked(usize::try_from(len).ok()?)?;
        self.0 = left;
        Some(part)
    }
}

impl<'a> Iterator for Answers<'a> {
    type Item = LoggedAnswer<'a>;

    fn next(&mut self) -> Option<LoggedAnswer<'a>> {
        let (words, _) = self.part(WORDS_LEN as u64)?.as_chunks();
        let mut numbers = [0; WORDS];
        for (number, &word) in numbers.iter_mut().zip(words) {
            *number = u64::from_be_bytes(word);
        }
        let [report @ .., found, amount, answers, publication, output] = numbers;
        Some(LoggedAnswer {
            report,
            told: [found, amount],
            answers: self.part(answers)?,
            publication: self.part(publication)?,
            output: self.part(output)?,
        })
    }
}
