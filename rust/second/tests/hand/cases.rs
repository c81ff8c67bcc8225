//! Document 01's cases P1 to P13 and its worked example.

use crate::desk::*;
use second::build;

#[test]
fn worked_example() {
    each_desk(|desk| {
        let round = round(N, (TEN, 3), (TEN + 2 * CENT, 2));
        let (report, answers) = desk.send(N, &[quote(&round)]);
        assert_eq!(report.fields(), [0, 0, 2, 1, 1, 0, 0]);
        assert_eq!(answers, [[0, 0, 3, 0]]);
        let mut bytes = b"NR  ".to_vec();
        bytes.extend([0, 0, 0, 0, 0, 0x98, 0x96, 0x80, 0, 0, 0, 3]);
        bytes.extend(b"NR  ");
        bytes.extend([0, 0, 0, 0, 0, 0x98, 0xE4, 0xA0, 0, 0, 0, 2]);
        for _ in 0..4 {
            bytes.extend(b"    \0\0\0\0\0\0\0\0\0\0\0\0");
        }
        assert_eq!(desk.publication("ZT"), bytes);
    });
}

#[test]
fn p1_larger_size_wins() {
    each_desk(|desk| {
        desk.code(N, quote(&round(N, (TEN, 3), NOTHING)));
        desk.code(P, quote(&round(P, (TEN, 5), NOTHING)));
        assert_eq!(desk.national_bid(), entry("PRS", TEN, 5));
    });
}

#[test]
fn p2_earlier_time_wins() {
    each_desk(|desk| {
        let n = round(N, (TEN, 3), NOTHING);
        let mut p = round(P, (TEN, 3), NOTHING);
        p.time = 6;
        desk.code(N, quote(&n));
        desk.code(P, quote(&p));
        assert_eq!(desk.national_bid(), entry("PRT", TEN, 3));
    });
}

#[test]
fn a_larger_size_wins_before_an_earlier_time() {
    each_desk(|desk| {
        let mut n = round(N, (TEN, 3), NOTHING);
        n.time = 6;
        desk.code(N, quote(&n));
        desk.code(P, quote(&round(P, (TEN, 5), NOTHING)));
        assert_eq!(desk.national_bid(), entry("PRS", TEN, 5));
    });
}

#[test]
fn p3_lowest_letter_wins() {
    each_desk(|desk| {
        desk.code(P, quote(&round(P, (TEN, 3), NOTHING)));
        desk.code(N, quote(&round(N, (TEN, 3), NOTHING)));
        assert_eq!(desk.national_bid(), entry("NRL", TEN, 3));
    });
}

#[test]
fn p4_condition_e_admits_the_offer_only() {
    each_desk(|desk| {
        let mut round = round(N, (TEN, 3), (TEN + CENT, 2));
        round.condition = b'E';
        assert_eq!(desk.message(N, quote(&round)), (0, 2));
        assert_eq!(desk.national_bid(), none());
        assert_eq!(desk.national_offer(), entry("NE", TEN + CENT, 2));
    });
}

#[test]
fn p5_indication_does_not_count() {
    each_desk(|desk| {
        let round = round(N, (5_000_000, 0), NOTHING);
        assert_eq!(desk.message(N, quote(&round)), (0, 0));
        assert_eq!(desk.national_bid(), none());
    });
}

#[test]
fn p6_size_without_price() {
    each_desk(|desk| {
        assert_eq!(desk.code(N, quote(&round(N, (0, 1), NOTHING))), 47);
        assert_eq!(desk.code(N, quote(&round(N, NOTHING, (0, 1)))), 47);
    });
}

#[test]
fn p7_shares_under_a_round_lot() {
    each_desk(|desk| {
        let refused = odd_lot(N, &odd(b' ', &[(TEN, 100)], &[]));
        assert_eq!(desk.code(N, refused), 63);
        assert_eq!(desk.odd_bid(), none());
        let accepted = odd_lot(N, &odd(b' ', &[(TEN, 99)], &[]));
        assert_eq!(desk.message(N, accepted), (0, 16));
        assert_eq!(desk.odd_bid(), entry("N", TEN, 99));
    });
}

#[test]
fn p8_five_bids_and_a_clear() {
    each_desk(|desk| {
        let old = four_bids();
        assert_eq!(desk.code(N, odd_lot(N, &odd(b' ', &old, &[]))), 0);
        let five: Vec<_> = (1..=5).map(|cents| (TEN - cents * CENT, 2)).collect();
        assert_eq!(desk.code(N, odd_lot(N, &odd(b'B', &five, &[]))), 61);
        assert_levels_stand(desk);
    });
}

/// The four old bids stand, which their removal one after another shows.
fn assert_levels_stand(desk: &mut Desk) {
    for (price, _) in four_bids().into_iter().rev() {
        assert_eq!(desk.odd_bid(), entry("N", price, 1));
        assert_eq!(desk.code(N, odd_lot(N, &odd(b' ', &[(price, 0)], &[]))), 0);
    }
    assert_eq!(desk.odd_bid(), none());
}

#[test]
fn p9_fifth_level_and_a_round_part() {
    each_desk(|desk| {
        desk.code(N, odd_lot(N, &odd(b' ', &four_bids(), &[])));
        let round = round(N, (TEN, 3), NOTHING);
        let fifth = odd(b' ', &[(TEN + 5 * CENT, 1)], &[]);
        let (report, answers) = desk.send(N, &[build::round_lot(&round, &fifth)]);
        assert_eq!((report.accepted, report.partly, report.rejected), (0, 1, 0));
        assert_eq!(answers, [[0, 64, 1, 0]]);
        assert_eq!(desk.national_bid(), entry("NR", TEN, 3));
        assert_levels_stand(desk);
    });
}

/// Moves line N's expected number by two blocks with gaps.
fn bring_expected_to(desk: &mut Desk, expected: u32) {
    let idle = quote(&round(N, NOTHING, NOTHING));
    for sequence in [1 << 31, expected.wrapping_sub(1)] {
        let (report, _) = desk.take(N, &build::block(sequence, std::slice::from_ref(&idle)));
        assert_eq!(report.number, 70);
    }
    assert_eq!(desk.record(N), (expected, 2));
}

#[test]
fn p10_expected_number_wraps() {
    each_desk(|desk| {
        bring_expected_to(desk, 4_294_967_295);
        let idle = quote(&round(N, NOTHING, NOTHING));
        let (report, _) = desk.take(N, &build::block(4_294_967_295, &[idle.clone(), idle]));
        assert_eq!(report.fields(), [0, 0, 1, 4, 2, 0, 0]);
    });
}

#[test]
fn p11_half_the_range() {
    each_desk(|desk| {
        bring_expected_to(desk, 0);
        let idle = [quote(&round(N, NOTHING, NOTHING))];
        let (report, answers) = desk.take(N, &build::block(2_147_483_648, &idle));
        assert_eq!(report.fields(), [35, 0, 0, 2, 0, 0, 0]);
        assert!(answers.is_empty());
        let (report, _) = desk.take(N, &build::block(2_147_483_647, &idle));
        let expected = [70, 2_147_483_647, 2_147_483_648, 3, 1, 0, 0];
        assert_eq!(report.fields(), expected);
    });
}

#[test]
fn p12_odd_bid_at_the_national_bid() {
    each_desk(|desk| {
        let round = round(N, (TEN, 3), NOTHING);
        desk.code(N, quote(&round));
        let at = odd_lot(P, &odd(b' ', &[(TEN, 9)], &[]));
        assert_eq!(desk.message(P, at), (0, 0));
        assert_eq!(desk.odd_bid(), none());
        let above = odd_lot(P, &odd(b' ', &[(TEN + 1, 9)], &[]));
        assert_eq!(desk.message(P, above), (0, 16));
        assert_eq!(desk.odd_bid(), entry("P", TEN + 1, 9));
    });
}

#[test]
fn p13_checksum_of_a_line_integrity_block() {
    let mut block = vec![1, 1, 0, 32, 0, 0, 0, 1, 0x01, 0x14, 0, 12];
    block.extend(b"CTN");
    block.resize(32, 0);
    assert_eq!(u16::from_be_bytes([block[8], block[9]]), 276);
    assert_eq!(
        block,
        build::block(1, &[build::header(b'C', b'T', b'N', 0)])
    );
    each_desk(|desk| {
        let (report, answers) = desk.take(N, &block);
        assert_eq!(report.fields(), [0, 0, 1, 0, 1, 0, 0]);
        assert_eq!(answers, [[0, 0, 0, 0]]);
        block_with(desk, &block, 275);
        block_with(desk, &block, 277);
    });
}

fn block_with(desk: &mut Desk, block: &[u8], checksum: u16) {
    let mut wrong = block.to_vec();
    wrong[8..10].copy_from_slice(&checksum.to_be_bytes());
    let (report, _) = desk.take(N, &wrong);
    assert_eq!(report.fields(), [32, 0, 1, 0, 0, 0, 0]);
}
