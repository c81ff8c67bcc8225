//! A book for each planted mistake of the engine, and how they are found.

use second::compare::{compare, first_difference, observe, Fresh};
use second::engine::{mistake, Book, FollowLeader, Recompute};
use second::shrink::shrink;
use second::{generate, QuoteBook};

pub fn engine<const M: u8>(n: u32) -> Box<dyn QuoteBook> {
    Box::new(Book::<Recompute, M>::fresh(n).expect("n is 1 to 64"))
}

pub fn incremental<const M: u8>(n: u32) -> Box<dyn QuoteBook> {
    Box::new(Book::<FollowLeader, M>::fresh(n).expect("n is 1 to 64"))
}

macro_rules! mistaken {
    ($($book:ident: $($number:literal)*;)*) => {
        &[$($(($number, $book::<$number> as Fresh)),*),*]
    };
}

/// A book for each row of the table of mistakes.
const BOOKS: &[(u8, Fresh)] = mistaken! {
    engine:
        1 2 3 4 5 6 7 8 9 10 11 12 13 14 15 16 17 18 19 20
        21 22 23 24 25 26 27 28 29 30 31 32 33 34 35 36 37 38 39 40
        41 42 43 44 45 46 47 48;
    incremental: 49;
    engine:
        50 51 52 53 54 55 56 57 58 59 60 61 62 63 64 65 66 67 68 69
        70 71 72 73 74 75 76 77 78 79 80 81 82;
    incremental: 83;
    engine: 84 85 86 87;
    incremental: 88;
    engine: 89 90 91 92 93 94 95 96;
    incremental: 97 98;
    engine:
        99 100 101 102 103 104 105 106 107 108 109 110 111 112 113 114 115 116 117 118
        119 120 121 122 123 124 125 126 127 128 129 130 131 132 133 134 135 136 137 138
        139 140 141;
    engine:
        142 143 144 145 146 147 148 149 150 151 152 153 154 155 156 157 158 159 160 161
        162 163 164 165 166;
    engine: 167 168 169 170 171 172 173 174 175 176;
};

const LISTS: u64 = 400;
pub const CALLS: usize = 200;

/// How a mistake was found: after how many calls, and how many of them reproduce it.
struct Found {
    number: u8,
    calls: usize,
    reproduced_by: usize,
}

/// Compares each mistaken book with a reference until it is found, prints how, and fails if one of
/// them never is.
pub fn find_every_mistake(reference: Fresh) {
    assert!(BOOKS
        .iter()
        .map(|&(number, _)| number)
        .eq(mistake::TABLE.iter().map(|&(number, _)| number)));

    let mut found = Vec::new();
    let mut hidden = BOOKS.to_vec();
    for seed in 0..LISTS {
        if hidden.is_empty() {
            break;
        }
        let list = generate::list(seed, CALLS);
        let expected = observe(reference, &list);
        hidden.retain(|&(number, fresh)| {
            let Some(difference) = first_difference(&expected, fresh, &list) else {
                return true;
            };
            let short = shrink(&list, |list| compare(reference, fresh, list).is_some());
            found.push(Found {
                number,
                calls: seed as usize * CALLS + difference.at + 1,
                reproduced_by: short.calls.len(),
            });
            false
        });
    }
    found.sort_by_key(|found| found.number);
    for Found {
        number,
        calls,
        reproduced_by,
    } in found
    {
        let (_, sentence) = mistake::TABLE[usize::from(number) - 1];
        println!("{number:2} found after {calls:4} calls, shown by {reproduced_by:2}: {sentence}");
    }
    let hidden: Vec<u8> = hidden.into_iter().map(|(number, _)| number).collect();
    assert_eq!(hidden, [0; 0], "mistakes that were not found");
}
