//! Hand-written ticks (T-14): shares, the spare, and what is charged.

use crate::desk::*;
use second::build;

/// The shares of the desk's lines A, N, P and D.
fn shares(of: [u8; 4]) -> Vec<u8> {
    let mut shares = vec![0; 64];
    for (line, share) in [A, N, P, D].into_iter().zip(of) {
        shares[line as usize] = share;
    }
    shares
}

/// The number of a block of one rejected message, sent in order.
fn sent(desk: &mut Desk, line: u32) -> u8 {
    desk.send(line, &[vec![0; 20]]).0.number
}

fn sent_times(desk: &mut Desk, line: u32, times: usize) -> Vec<u8> {
    (0..times).map(|_| sent(desk, line)).collect()
}

#[test]
fn settings_are_checked() {
    each_desk(|desk| {
        let none = shares([0; 4]);
        for blocks in [0, 256, 257, 256 + 5, u32::MAX] {
            assert_eq!(desk.book.set_allowance(blocks, &none), 84);
            assert_eq!(desk.book.set_allowance(blocks, &[]), 84);
        }
        for count in [0, 1, 63, 65, 128] {
            assert_eq!(desk.book.set_allowance(255, &vec![0; count]), 85);
        }
        assert_eq!(desk.book.set_allowance(9, &shares([4, 3, 2, 1])), 85);
        assert_eq!(desk.book.set_allowance(255, &[4; 64]), 85);
        // None of these set anything.
        assert_eq!(sent_times(desk, N, 20), [0; 20]);
        assert_eq!(desk.book.set_allowance(10, &shares([4, 3, 2, 1])), 0);
        assert_eq!(desk.book.set_allowance(1, &none), 0);
    });
}

/// docs/ALLOWANCE.md has this as a table.
#[test]
fn a_burst_leaves_the_others_their_shares() {
    each_desk(|desk| {
        let of_each = shares([0, 2, 2, 2]);
        assert_eq!(desk.book.set_allowance(8, &of_each), 0);
        let burst = [0, 0, 0, 0, 86, 86, 86, 86, 86, 86];
        assert_eq!(sent_times(desk, N, 10), burst);
        assert_eq!(desk.record(N), (5, 4));
        assert_eq!(sent_times(desk, P, 2), [0, 0]);
        assert_eq!(sent_times(desk, D, 2), [0, 0]);
        for line in [A, N, P, D] {
            assert_eq!(sent(desk, line), 86);
        }
        assert_eq!(desk.book.tick(), 0);
        assert_eq!(sent_times(desk, A, 3), [0, 0, 86]);
        assert_eq!(sent_times(desk, N, 3), [0, 0, 86]);
    });
}

#[test]
fn the_share_is_charged_before_the_spare() {
    each_desk(|desk| {
        assert_eq!(desk.book.set_allowance(2, &shares([0, 1, 0, 0])), 0);
        assert_eq!(sent(desk, N), 0);
        assert_eq!(sent_times(desk, P, 2), [0, 86]);
        assert_eq!(sent(desk, N), 86);
    });
}

#[test]
fn free_blocks_and_refused_ones_are_not_charged() {
    each_desk(|desk| {
        assert_eq!(desk.book.set_allowance(2, &shares([0; 4])), 0);
        for _ in 0..5 {
            assert_eq!(desk.code(N, control(b'T', N)), 0);
            assert_eq!(desk.code(N, control(b'I', N)), 0);
        }
        let first = build::block(1, &[vec![0; 20]]);
        assert_eq!(desk.take(N, &first).0.number, 0);
        for _ in 0..5 {
            assert_eq!(desk.take(N, &first).0.number, 35);
            assert_eq!(desk.take(N, &[]).0.number, 30);
            assert_eq!(desk.take(40, &first).0.number, 21);
        }
        assert_eq!(sent(desk, P), 0);
        assert_eq!(sent(desk, P), 86);
        // With nothing left: 35 stands before 86, 20 too, and free blocks skip it.
        assert_eq!(desk.take(N, &first).0.number, 35);
        assert_eq!(desk.code(P, control(b'T', P)), 0);
        assert_eq!(desk.book.end_day(), 0);
        assert_eq!(sent(desk, P), 20);
        assert_eq!(desk.code(P, control(b'T', P)), 0);
    });
}

#[test]
fn a_refused_block_can_be_sent_again() {
    each_desk(|desk| {
        assert_eq!(desk.book.set_allowance(1, &shares([0; 4])), 0);
        assert_eq!(sent(desk, N), 0);
        let behind_a_gap = build::block(5, &[vec![0; 20]]);
        let (report, answers) = desk.take(N, &behind_a_gap);
        assert_eq!((report.number, report.gap, answers.len()), (86, 0, 0));
        assert_eq!((report.expected, report.count), (2, 1));
        assert_eq!(desk.book.tick(), 0);
        let (report, _) = desk.take(N, &behind_a_gap);
        assert_eq!((report.number, report.gap), (70, 3));
        assert_eq!((report.expected, report.count), (6, 2));
        assert_eq!(sent(desk, N), 86);
    });
}

#[test]
fn days_keep_it_and_make_takes_it_away() {
    each_desk(|desk| {
        assert_eq!(desk.book.set_allowance(1, &shares([0; 4])), 0);
        assert_eq!(sent(desk, N), 0);
        assert_eq!(desk.book.end_day(), 0);
        assert_eq!(desk.book.start_day(), 0);
        assert_eq!(sent(desk, N), 86);
        // Refused settings start no tick, a setting does.
        assert_eq!(desk.book.set_allowance(0, &shares([0; 4])), 84);
        assert_eq!(desk.book.set_allowance(1, &[]), 85);
        assert_eq!(sent(desk, N), 86);
        assert_eq!(desk.book.set_allowance(1, &shares([0; 4])), 0);
        assert_eq!(sent(desk, N), 0);
        assert_eq!(desk.book.make(5), 2);
        assert_eq!(sent(desk, N), 86);
        assert_eq!(desk.book.make(4), 0);
        assert_eq!(desk.book.open_line(N, b'N'), 0);
        assert_eq!(desk.book.start_day(), 0);
        assert_eq!(sent_times(desk, N, 20), [0; 20]);
    });
}

#[test]
fn without_an_allowance_a_tick_changes_nothing() {
    each_desk(|desk| {
        assert_eq!(desk.book.tick(), 0);
        assert_eq!(desk.code(N, quote(&round(N, (TEN, 3), NOTHING))), 0);
        let before = desk.publication("ZT");
        assert_eq!(desk.book.tick(), 0);
        assert_eq!(desk.publication("ZT"), before);
        assert_eq!(sent_times(desk, N, 300), [0; 300]);
    });
}
