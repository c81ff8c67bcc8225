//! Hand-written answers of the line checks and of sequence numbers.

use crate::desk::*;
use second::build::{self, seal, seal_checksum};

fn idle() -> Vec<u8> {
    quote(&round(N, NOTHING, NOTHING))
}

/// The number of a block that is refused or taken on N's line.
fn number(desk: &mut Desk, block: &[u8]) -> u8 {
    desk.take(N, block).0.number
}

#[test]
fn lengths() {
    each_desk(|desk| {
        for len in [0, 1, 3, 4, 9, 10, 31, 1001, 70_000] {
            assert_eq!(number(desk, &vec![0; len]), 30);
        }
        let mut long = build::block(1, &[idle()]);
        long.resize(1001, 0);
        seal(&mut long);
        assert_eq!(number(desk, &long), 30);
        let mut block = build::block(1, &[idle()]);
        block[3] += 1;
        seal_checksum(&mut block);
        assert_eq!(number(desk, &block), 30);
    });
}

#[test]
fn checks_go_30_31_32_33_34_20_35() {
    each_desk(|desk| {
        assert_eq!(desk.book.end_day(), 0);
        // Every check from 31 on would refuse this block; the faults go one after another.
        let mut block = build::block(0, &[control(b'C', N), control(b'T', N)]);
        block[0] = 2;
        block[3] += 1;
        block[11] += 1;
        assert_eq!(number(desk, &block), 30);
        block[3] -= 1;
        assert_eq!(number(desk, &block), 31);
        block[0] = 1;
        assert_eq!(number(desk, &block), 32);
        seal_checksum(&mut block);
        assert_eq!(number(desk, &block), 33);
        block[11] -= 1;
        seal_checksum(&mut block);
        assert_eq!(number(desk, &block), 34);
        let block = build::block(0, &[idle()]);
        assert_eq!(number(desk, &block), 20);
        assert_eq!(desk.book.start_day(), 0);
        assert_eq!(number(desk, &block), 35);
    });
}

#[test]
fn offsets() {
    each_desk(|desk| {
        let refused = |desk: &mut Desk, at: usize, value: u8| {
            let mut block = build::block(1, &[idle(), idle(), idle()]);
            block[at] = value;
            seal(&mut block);
            assert_eq!(number(desk, &block), 33);
        };
        for count in [0, 2, 4, 45, 46, 255] {
            refused(desk, 1, count);
        }
        // Offsets are 16, 76 and 136 of a block of 196 bytes.
        for first in [0, 15, 17] {
            refused(desk, 11, first);
        }
        for second in [0, 35, 117, 255] {
            refused(desk, 13, second);
        }
        for third in [95, 177, 255] {
            refused(desk, 15, third);
        }
        refused(desk, 14, 1);
        let mut block = build::block(1, &[idle(), idle(), idle()]);
        block[13] = 36;
        block[15] = 176;
        seal(&mut block);
        let (report, answers) = desk.take(N, &block);
        assert_eq!(report.number, 0);
        assert_eq!(
            answers.iter().map(|answer| answer[1]).collect::<Vec<_>>(),
            [42, 40, 40]
        );
    });
}

#[test]
fn forty_five_messages_fill_a_block() {
    each_desk(|desk| {
        let short = build::header(b'Q', b'K', b'N', 7);
        let block = build::block(1, &vec![short.clone(); 45]);
        assert_eq!(block.len(), 1000);
        let (report, answers) = desk.take(N, &block);
        assert_eq!(report.fields(), [0, 0, 46, 45, 0, 0, 45]);
        assert_eq!(answers[44], [44, 42, 0, 0]);
        assert_eq!(number(desk, &build::block(46, &vec![short; 46])), 30);
    });
}

#[test]
fn control_among_others_whatever_its_type() {
    each_desk(|desk| {
        for message_type in [b'I', b'T', b'C', b'O', b'5', b'?', 0] {
            let messages = [idle(), control(message_type, N)];
            assert_eq!(number(desk, &build::block(1, &messages)), 34);
        }
        let (report, answers) = desk.take(N, &build::block(1, &[control(b'?', N)]));
        assert_eq!(report.fields(), [0, 0, 2, 1, 0, 0, 1]);
        assert_eq!(answers, [[0, 40, 0, 0]]);
    });
}

#[test]
fn inquiry_integrity_and_test_skip_the_line() {
    each_desk(|desk| {
        assert_eq!(desk.book.end_day(), 0);
        let mut damaged = control(b'I', N);
        damaged[3] = 1;
        let mut long = control(b'T', N);
        long.push(0);
        let messages = [
            (control(b'I', N), 0),
            (control(b'T', N), 0),
            (build::test(b'N', 7), 0),
            (control(b'T', P), 41),
            (long, 42),
            (control(b'5', N), 42),
            (damaged, 43),
        ];
        for (message, code) in messages {
            for sequence in [0, 1, 9, 1 << 31] {
                let block = build::block(sequence, std::slice::from_ref(&message));
                let (report, answers) = desk.take(N, &block);
                let (accepted, rejected) = if code == 0 { (1, 0) } else { (0, 1) };
                assert_eq!(report.fields(), [0, 0, 1, 0, accepted, 0, rejected]);
                assert_eq!(answers, [[0, code, 0, 0]]);
            }
        }
    });
}

#[test]
fn close_and_open_do_not_skip() {
    each_desk(|desk| {
        let (report, answers) = desk.send(N, &[control(b'C', N)]);
        assert_eq!(report.fields(), [0, 0, 2, 1, 0, 0, 1]);
        assert_eq!(answers, [[0, 44, 0, 0]]);
        assert_eq!(number(desk, &build::block(1, &[control(b'O', N)])), 35);
        assert_eq!(desk.book.end_day(), 0);
        assert_eq!(number(desk, &build::block(2, &[control(b'O', N)])), 20);
    });
}

#[test]
fn gaps_and_duplicates() {
    each_desk(|desk| {
        let two = [idle(), build::header(b'Q', b'?', b'N', 7)];
        let (report, _) = desk.take(N, &build::block(4, &two));
        assert_eq!(report.fields(), [70, 3, 6, 2, 1, 0, 1]);
        for sequence in [5, 4, 0, u32::MAX, 6 + (1 << 31)] {
            let (report, _) = desk.take(N, &build::block(sequence, &two));
            assert_eq!(report.fields(), [35, 0, 6, 2, 0, 0, 0]);
        }
        let (report, _) = desk.take(N, &build::block(6, &two));
        assert_eq!(report.fields(), [0, 0, 8, 4, 1, 0, 1]);
    });
}
