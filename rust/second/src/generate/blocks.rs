//! Block calls: which line, which sequence number, which messages.

use super::damage::{arbitrary_block, damage_block, damage_message};
use super::{Generator, OpenLine, Theme};
use crate::build;
use crate::call::Call;
use crate::terms::{ANSWER_LEN, BLOCK_MAX, FINRA, MESSAGES_MAX, MESSAGE_MIN};

impl Generator {
    pub(super) fn take_call(&mut self) -> Call {
        let line = self.draw_line();
        let odd_lengths = [0, 1, 4, 96, 179, 181, 200, 256];
        Call::TakeBlock {
            line: line.line,
            block: self.draw_block(&line),
            answer_len: self.random.usually(96, &[ANSWER_LEN], &odd_lengths),
        }
    }

    /// Mostly an open line, of D as often as the theme wants it.
    fn draw_line(&mut self) -> OpenLine {
        if self.lines.is_empty() || self.random.percent(2) {
            let lines = [0, 5, 62, 63, 64, 255, 256, 261, u32::MAX];
            return OpenLine {
                line: self.random.pick(&lines),
                letter: b'N',
                expected: 1,
            };
        }
        if self.theme == Theme::Letters && self.random.percent(80) {
            if let Some(line) = self.silent_line() {
                return line;
            }
        }
        let finra = self.random.percent(self.theme.finra_blocks());
        let wanted: Vec<OpenLine> = self
            .lines
            .iter()
            .filter(|line| (line.letter == FINRA) == finra)
            .copied()
            .collect();
        if wanted.is_empty() {
            self.random.pick(&self.lines)
        } else {
            self.random.pick(&wanted)
        }
    }

    /// A line whose letter has sent no quote.
    fn silent_line(&self) -> Option<OpenLine> {
        let is_silent = |line: &&OpenLine| self.quoted.keys().all(|key| key.0 .0 != line.letter);
        self.lines.iter().find(is_silent).copied()
    }

    fn draw_block(&mut self, line: &OpenLine) -> Vec<u8> {
        let messages = match self.random.weighted(&self.theme.blocks()) {
            0 => self.quote_messages(line.letter),
            1 => self.control_messages(line.letter),
            2 => self.short_messages(line.letter),
            _ => return arbitrary_block(&mut self.random),
        };
        let mut block = build::block(self.draw_sequence(line.expected), &messages);
        if self.random.percent(self.theme.damaged_blocks()) {
            damage_block(&mut self.random, &mut block);
        }
        block
    }

    /// Mostly the expected number, else a gap, a duplicate, or a number about half the range away
    /// or where the numbers wrap.
    fn draw_sequence(&mut self, expected: u32) -> u32 {
        let near = 1 + self.random.below(5) as u32;
        let half = 1 << 31;
        let last = u32::MAX;
        let borders = [0, 1, 2, half - 1, half, last - 44, last - 1, last];
        match self.random.weighted(&[84, 6, 3, 3, 3, 1]) {
            0 => expected,
            1 => expected.wrapping_add(near),
            2 => expected.wrapping_sub(near),
            3 => expected.wrapping_add(half - 3).wrapping_add(near),
            4 => self.random.pick(&borders),
            _ => self.random.number() as u32,
        }
    }

    /// One to fourteen quotes, as many as fit a block, seldom a control message among them.
    fn quote_messages(&mut self, letter: u8) -> Vec<Vec<u8>> {
        let count = match self.random.weighted(&[45, 35, 20]) {
            0 => 1,
            1 => 2 + self.random.below(3),
            _ => 5 + self.random.below(10),
        };
        let mut messages: Vec<Vec<u8>> = Vec::new();
        let mut len = 10;
        for _ in 0..count {
            let mut message = self.quote_message(letter);
            if count > 1 && self.random.percent(1) {
                message = self.control_message(letter);
            }
            self.damage(&mut message);
            len += 2 + message.len();
            if len > BLOCK_MAX && !messages.is_empty() {
                break;
            }
            messages.push(message);
        }
        messages
    }

    /// A control message, seldom two.
    fn control_messages(&mut self, letter: u8) -> Vec<Vec<u8>> {
        let count = if self.random.percent(4) { 2 } else { 1 };
        let mut messages = Vec::new();
        for _ in 0..count {
            let mut message = self.control_message(letter);
            self.damage(&mut message);
            messages.push(message);
        }
        messages
    }

    /// Up to 46 messages that are cut to 20 bytes.
    fn short_messages(&mut self, letter: u8) -> Vec<Vec<u8>> {
        let count = match self.random.below(3) {
            0 => MESSAGES_MAX - 1 + self.random.below(3),
            _ => 1 + self.random.below(MESSAGES_MAX),
        };
        let mut messages = Vec::new();
        for _ in 0..count {
            let mut message = self.quote_message(letter);
            message.truncate(MESSAGE_MIN);
            message[1] = self.random.pick(b"KMUTk?");
            messages.push(message);
        }
        messages
    }

    /// Any reference number, since it is not read. One message in nine is damaged, some of these
    /// more than once.
    fn damage(&mut self, message: &mut Vec<u8>) {
        if self.random.percent(20) {
            message[12..20].copy_from_slice(&self.random.number().to_be_bytes());
        }
        while self.random.percent(11) {
            damage_message(&mut self.random, message);
        }
    }
}
