//! Hand-written orders (T-13), and every other division of small ones.

use crate::desk::*;
use second::build::{self, Round, Shown};
use second::generate::Random;
use second::Tried;

#[test]
fn b_buys_at_the_offers_and_s_sells_at_the_bids() {
    each_desk(|desk| {
        assert_eq!(desk.order(b'B', 7), (vec![], 7));
        assert_eq!(desk.order(b'S', 7), (vec![], 7));
        desk.code(N, quote(&round(N, (TEN, 3), (TEN + CENT, 2))));
        assert_eq!(desk.order(b'B', 1), (vec![('N', TEN + CENT, 1)], 0));
        assert_eq!(desk.order(b'B', 2), (vec![('N', TEN + CENT, 2)], 0));
        assert_eq!(desk.order(b'B', 3), (vec![('N', TEN + CENT, 2)], 1));
        assert_eq!(desk.order(b'S', 3), (vec![('N', TEN, 3)], 0));
        let most = desk.order(b'S', 1_000_000);
        assert_eq!(most, (vec![('N', TEN, 3)], 999_997));
    });
}

/// Price, larger size, earlier time, letter; the last step is cut.
#[test]
fn steps_are_in_national_order() {
    each_desk(|desk| {
        let at = |line, time, bid: Shown, offer: Shown| {
            let mut quoted = round(line, bid, offer);
            quoted.time = time;
            quote(&quoted)
        };
        desk.code(N, at(N, 7, (TEN, 3), (TEN + 2 * CENT, 2)));
        desk.code(P, at(P, 9, (TEN, 5), (TEN + 2 * CENT, 2)));
        desk.code(A, at(A, 7, (TEN, 3), (TEN + 2 * CENT, 2)));
        desk.quote_by(20, b'Z', (TEN + CENT, 1), (TEN + CENT, 1));
        let sold = vec![
            ('Z', TEN + CENT, 1),
            ('P', TEN, 5),
            ('A', TEN, 3),
            ('N', TEN, 3),
        ];
        assert_eq!(desk.order(b'S', 12), (sold.clone(), 0));
        assert_eq!(desk.order(b'S', 13), (sold.clone(), 1));
        let mut cut = sold[..3].to_vec();
        assert_eq!(desk.order(b'S', 9), (cut.clone(), 0));
        cut[2].2 = 1;
        assert_eq!(desk.order(b'S', 7), (cut, 0));
        assert_eq!(desk.order(b'S', 6), (sold[..2].to_vec(), 0));
        let bought = [('Z', 1, 1), ('A', 2, 2), ('N', 2, 2), ('P', 2, 2)];
        let bought = bought.map(|(letter, cents, lots)| (letter, TEN + cents * CENT, lots));
        assert_eq!(desk.order(b'B', 7), (bought.to_vec(), 0));
    });
}

#[test]
fn d_stands_with_its_finra_best_only() {
    each_desk(|desk| {
        desk.code(D, maker("AA", (TEN, 2), (TEN + CENT, 5)));
        desk.code(D, maker("BB", (TEN, 3), (TEN + CENT, 1)));
        desk.code(D, maker("CC", (TEN - CENT, 9), NOTHING));
        assert_eq!(desk.order(b'S', 20), (vec![('D', TEN, 3)], 17));
        assert_eq!(desk.order(b'B', 20), (vec![('D', TEN + CENT, 5)], 15));
        desk.code(N, quote(&round(N, (TEN, 3), NOTHING)));
        let both = vec![('D', TEN, 3), ('N', TEN, 3)];
        assert_eq!(desk.order(b'S', 6), (both, 0));
        // FINRA Close: no maker counts.
        desk.code(D, control(b'C', D));
        assert_eq!(desk.order(b'S', 6), (vec![('N', TEN, 3)], 3));
        assert_eq!(desk.order(b'B', 6), (vec![], 6));
    });
}

/// "A halted symbol fills nothing": no steps, and all lots not found. The quote that came meanwhile shows
/// with T; End keeps a halt, and Start, which ends it, leaves no quote.
#[test]
fn a_halted_symbol_fills_nothing() {
    each_desk(|desk| {
        desk.code(N, quote(&round(N, (TEN, 3), (TEN + CENT, 2))));
        assert_eq!(desk.order(b'S', 3), (vec![('N', TEN, 3)], 0));
        assert_eq!(desk.code(N, status(N, "ZT", b'H')), 0);
        assert_eq!(desk.order(b'S', 3), (vec![], 3));
        assert_eq!(desk.order(b'B', 1_000_000), (vec![], 1_000_000));
        desk.code(N, quote(&round(N, (TEN, 4), (TEN + CENT, 2))));
        assert_eq!(desk.order(b'S', 4), (vec![], 4));
        assert_eq!(desk.code(N, status(N, "ZT", b'T')), 0);
        assert_eq!(desk.order(b'S', 5), (vec![('N', TEN, 4)], 1));
        assert_eq!(desk.order(b'B', 1), (vec![('N', TEN + CENT, 1)], 0));
        assert_eq!(desk.code(N, status(N, "ZT", b'H')), 0);
        assert_eq!(desk.book.end_day(), 0);
        assert_eq!(desk.order(b'S', 1), (vec![], 1));
        assert_eq!(desk.book.start_day(), 0);
        assert_eq!(desk.order(b'S', 1), (vec![], 1));
    });
}

#[test]
fn what_does_not_count_fills_nothing() {
    each_desk(|desk| {
        // An indication, a condition that admits neither side, odd lots.
        desk.code(A, quote(&round(A, (TEN, 0), (TEN, 0))));
        let mut closing = round(N, (TEN, 1), (TEN, 1));
        closing.condition = b'C';
        desk.code(N, quote(&closing));
        desk.code(P, odd_lot(P, &odd(b' ', &[(TEN, 5)], &[(TEN, 5)])));
        for side in *b"BS" {
            assert_eq!(desk.order(side, 1), (vec![], 1));
        }
        // E admits the offer, F the bid.
        for (condition, filled) in [(b'E', b'B'), (b'F', b'S')] {
            closing.condition = condition;
            desk.code(N, quote(&closing));
            for side in *b"BS" {
                let expected = match side == filled {
                    true => (vec![('N', TEN, 1)], 0),
                    false => (vec![], 1),
                };
                assert_eq!(desk.order(side, 1), expected);
            }
        }
    });
}

#[test]
fn a_resent_quote_keeps_its_place() {
    each_desk(|desk| {
        let mut quoted = round(N, (TEN, 3), NOTHING);
        desk.code(N, quote(&quoted));
        let mut later = round(P, (TEN, 3), NOTHING);
        later.time = 8;
        desk.code(P, quote(&later));
        quoted.time = 9;
        desk.code(N, quote(&quoted));
        assert_eq!(desk.order(b'S', 4), (vec![('N', TEN, 3), ('P', TEN, 1)], 0));
    });
}

/// Every letter but S, with one lot each: 25 steps, which fill the 325 bytes.
#[test]
fn all_25_letters() {
    each_desk(|desk| {
        let letters: Vec<u8> = (b'A'..=b'Z').filter(|&letter| letter != b'S').collect();
        let price = |letter: u8| TEN + u64::from(letter % 5) * CENT;
        for (line, &letter) in (10..).zip(&letters) {
            let shown = (price(letter), 1);
            match letter {
                b'A' => assert_eq!(desk.code(A, quote(&round(A, shown, shown))), 0),
                b'N' => assert_eq!(desk.code(N, quote(&round(N, shown, shown))), 0),
                b'P' => assert_eq!(desk.code(P, quote(&round(P, shown, shown))), 0),
                b'D' => assert_eq!(desk.code(D, maker("AA", shown, shown)), 0),
                _ => desk.quote_by(line, letter, shown, shown),
            }
        }
        for side in *b"BS" {
            let mut expected = letters.clone();
            expected.sort_by_key(|&letter| {
                let price = price(letter);
                (
                    if side == b'B' {
                        price
                    } else {
                        u64::MAX - price
                    },
                    letter,
                )
            });
            let (steps, unfilled) = desk.order(side, 1_000_000);
            let taken: Vec<u8> = steps.iter().map(|step| step.0 as u8).collect();
            assert_eq!((taken, unfilled), (expected, 999_975));
            assert!(steps.iter().all(|step| step.2 == 1));
            // The output has exactly the room that is asked for.
            let mut output = [0xEE; 325];
            let zt = build::symbol("ZT");
            let told = desk.book.try_order(&zt, side, 1_000_000, &mut output);
            assert_eq!((told.number, told.steps), (0, 25));
            assert_eq!(output[312], steps[24].0 as u8);
        }
    });
}

/// Sizes that add up to more than 32 bits hold, and prices at both ends of theirs.
#[test]
fn the_largest_sizes_and_prices() {
    each_desk(|desk| {
        let most = u32::MAX;
        for line in [A, N, P] {
            desk.code(line, quote(&round(line, (u64::MAX, most), (1, most))));
        }
        desk.code(D, maker("AA", (u64::MAX, most), (1, most)));
        assert_eq!(
            desk.order(b'S', 1_000_000),
            (vec![('A', u64::MAX, 1_000_000)], 0)
        );
        assert_eq!(desk.order(b'B', 1_000_000), (vec![('A', 1, 1_000_000)], 0));
        desk.code(A, quote(&round(A, (u64::MAX, 999_999), (1, 999_999))));
        let steps = vec![('D', u64::MAX, 1_000_000)];
        assert_eq!(desk.order(b'S', 1_000_000), (steps, 0));
    });
}

#[test]
fn symbols_and_days_keep_apart() {
    each_desk(|desk| {
        desk.code(N, quote(&round(N, (TEN, 3), NOTHING)));
        let other = desk
            .book
            .try_order(&build::symbol("YY"), b'S', 3, &mut [0; 325]);
        let nothing = Tried {
            number: 0,
            steps: 0,
            unfilled: 3,
        };
        assert_eq!(other, nothing);
        // End keeps the quotes, and an order needs no open day; Start empties them.
        assert_eq!(desk.book.end_day(), 0);
        assert_eq!(desk.order(b'S', 3), (vec![('N', TEN, 3)], 0));
        assert_eq!(desk.book.start_day(), 0);
        assert_eq!(desk.order(b'S', 3), (vec![], 3));
    });
}

#[test]
fn checks_10_74_82_83() {
    each_desk(|desk| {
        desk.code(N, quote(&round(N, (TEN, 3), NOTHING)));
        let zt = build::symbol("ZT");
        let tried = |symbol: &[u8], side, lots, room| {
            let mut output = vec![0xEE; room];
            let told = desk.book.try_order(symbol, side, lots, &mut output);
            assert!(told.steps > 0 || output.iter().all(|&byte| byte == 0xEE));
            told
        };
        let symbols: [&[u8]; 5] = [b"", b"ZT", b"zt         ", b"ZT          ", b"XX         "];
        for symbol in symbols {
            for side in *b"BSX" {
                assert_eq!(tried(symbol, side, 0, 0), Tried::refused(10));
                assert_eq!(tried(symbol, side, 1, 325), Tried::refused(10));
            }
        }
        for side in (0..=255).filter(|side| !b"BS".contains(side)) {
            assert_eq!(tried(&zt, side, 0, 0), Tried::refused(74));
            assert_eq!(tried(&zt, side, 1, 325), Tried::refused(74));
        }
        for lots in [0, 1_000_001, 1 << 20, u32::MAX] {
            assert_eq!(tried(&zt, b'S', lots, 0), Tried::refused(82));
            assert_eq!(tried(&zt, b'S', lots, 325), Tried::refused(82));
        }
        for room in [0, 1, 13, 324] {
            assert_eq!(tried(&zt, b'S', 1, room), Tried::refused(83));
        }
        for (lots, room) in [(1, 325), (1_000_000, 326)] {
            let told = tried(&zt, b'S', lots, room);
            assert_eq!((told.number, told.steps), (0, 1));
        }
    });
}

/// On small random books, for every number of lots: of all divisions over the quotes that fill as many
/// lots, none costs less to buy or brings more to sell.
#[test]
fn no_other_division_is_better() {
    each_desk(|desk| {
        for seed in 0..200 {
            let mut random = Random::new(seed);
            let quotes: Vec<(char, u32, [Shown; 2])> = [('A', A), ('D', D), ('N', N), ('P', P)]
                .map(|(letter, line)| {
                    let shown = [0, 1].map(|_| {
                        let price = TEN + CENT * random.below(3) as u64;
                        (price, random.below(4) as u32)
                    });
                    (letter, line, shown)
                })
                .to_vec();
            for &(_, line, [bid, offer]) in &quotes {
                let mut quoted: Round = round(line, bid, offer);
                quoted.time = random.below(3) as u64;
                let message = match line {
                    D => build::maker_quote(&quoted, build::maker("AA")),
                    _ => quote(&quoted),
                };
                assert_eq!(desk.code(line, message), 0);
            }
            for (side, bought) in [(0, false), (1, true)] {
                let shown: Vec<Shown> = quotes.iter().map(|(_, _, sides)| sides[side]).collect();
                let all: u32 = shown.iter().map(|(_, size)| size).sum();
                for lots in 1..=all + 2 {
                    let (steps, unfilled) = desk.order(if bought { b'B' } else { b'S' }, lots);
                    let filled = lots.min(all);
                    assert_eq!(unfilled, lots - filled);
                    for &(letter, price, taken) in &steps {
                        let (_, _, sides) = quotes.iter().find(|quote| quote.0 == letter).unwrap();
                        assert!(price == sides[side].0 && (1..=sides[side].1).contains(&taken));
                    }
                    let total: u64 = steps.iter().map(|step| step.1 * u64::from(step.2)).sum();
                    let totals = totals(&shown, filled);
                    let best = match bought {
                        true => totals.iter().min(),
                        false => totals.iter().max(),
                    };
                    assert_eq!(best, Some(&total), "seed {seed}, {lots} lots: {steps:?}");
                }
            }
        }
    });
}

/// What every division of so many lots costs or brings.
fn totals(shown: &[Shown], lots: u32) -> Vec<u64> {
    let Some((&(price, size), others)) = shown.split_first() else {
        return if lots == 0 { vec![0] } else { vec![] };
    };
    let each = (0..=size.min(lots)).flat_map(|taken| {
        let part = price * u64::from(taken);
        let rest = totals(others, lots - taken);
        rest.into_iter().map(move |rest| part + rest)
    });
    each.collect()
}
