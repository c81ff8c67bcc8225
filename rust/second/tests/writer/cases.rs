//! Hand-written answers of a writer.

use second::build;
use second::writer::{Write, Writing, Written};

use crate::WRITERS;

fn each_writer(case: impl Fn(Write)) {
    for (name, write) in WRITERS {
        println!("{name}");
        case(write);
    }
}

/// A quote of so many bytes.
fn quote(len: usize) -> Vec<u8> {
    let mut message = b"QKN".to_vec();
    message.resize(len, 7);
    message
}

/// A message of category C and 20 bytes.
fn control(kind: u8) -> Vec<u8> {
    build::header(b'C', kind, b'N', 7)
}

/// The call that writes these messages into a block that they just fill.
fn of(messages: &[Vec<u8>]) -> Writing {
    let mut writing = Writing {
        messages: messages.concat(),
        lengths: messages
            .iter()
            .map(|message| message.len() as u32)
            .collect(),
        sequence: 1,
        room: 0,
    };
    writing.room = writing.needed();
    writing
}

/// The call is refused with this number: length 0, and every byte of the output as it was.
fn refused(write: Write, writing: &Writing, number: u8) {
    let (written, block) = writing.run(write);
    assert_eq!(written, Written { number, len: 0 }, "{writing:?}");
    let (_, untouched) = writing.run(|_, _, _, _| Written { number: 0, len: 0 });
    assert_eq!(block, untouched);
}

/// The block is written, and is the one that [`build`] makes. The bytes behind it stay.
fn done(write: Write, writing: &Writing, messages: &[Vec<u8>]) {
    let (written, block) = writing.run(write);
    let len = writing.needed();
    assert_eq!(written, Written { number: 0, len }, "{writing:?}");
    assert_eq!(block[..len], build::block(writing.sequence, messages));
    let (_, untouched) = writing.run(|_, _, _, _| Written { number: 0, len: 0 });
    assert_eq!(block[len..], untouched[len..]);
}

/// P13: a C T block by N, sequence 1, other fields 0, has checksum 276.
#[test]
fn the_block_of_p13() {
    each_writer(|write| {
        let mut message = b"CTN".to_vec();
        message.resize(20, 0);
        let (written, block) = of(&[message]).run(write);
        assert_eq!(written, Written { number: 0, len: 32 });
        let mut expected = b"\x01\x01\x00\x20\x00\x00\x00\x01\x01\x14\x00\x0CCTN".to_vec();
        expected.resize(32, 0);
        assert_eq!(block, expected);
    });
}

#[test]
fn two_messages_byte_by_byte() {
    each_writer(|write| {
        let messages = [[b'Q'; 20].to_vec(), [b'?'; 21].to_vec()];
        let mut writing = of(&messages);
        writing.sequence = 0x0102_0304;
        let (written, block) = writing.run(write);
        assert_eq!(written, Written { number: 0, len: 55 });
        // 1 + 2 + 55 + (1 + 2 + 3 + 4) + 14 + 34 + 20 * 81 + 21 * 63 = 3059, in hex 0BF3.
        let front = [1, 2, 0, 55, 1, 2, 3, 4, 0x0B, 0xF3, 0, 14, 0, 34];
        assert_eq!(block[..14], front);
        assert_eq!(block[14..], messages.concat());
    });
}

#[test]
fn one_message() {
    each_writer(|write| {
        for len in [20, 21, 60, 987, 988] {
            done(write, &of(&[quote(len)]), &[quote(len)]);
        }
        refused(write, &of(&[quote(989)]), 71);
        refused(write, &of(&[quote(19)]), 71);
        refused(write, &of(&[quote(0)]), 71);
    });
}

#[test]
fn forty_five_messages_of_20_bytes() {
    each_writer(|write| {
        let messages = vec![quote(20); 45];
        let writing = of(&messages);
        assert_eq!(writing.needed(), 1000);
        done(write, &writing, &messages);
        done(write, &of(&messages[..44]), &messages[..44]);
        for count in [46, 47, 255, 256, 301] {
            refused(write, &of(&vec![quote(20); count]), 71);
        }
    });
}

#[test]
fn blocks_of_1000_and_1001_bytes() {
    each_writer(|write| {
        for count in [1, 2, 7, 30, 44] {
            let last = 990 - 2 * count - 20 * (count - 1);
            let mut messages = vec![quote(20); count];
            messages[count - 1] = quote(last);
            done(write, &of(&messages), &messages);
            messages[0] = quote(messages[0].len() + 1);
            assert_eq!(of(&messages).needed(), 1001);
            refused(write, &of(&messages), 71);
        }
    });
}

#[test]
fn no_messages() {
    each_writer(|write| {
        for room in [0, 9, 10, 11, 1000] {
            let mut writing = of(&[]);
            writing.room = room;
            refused(write, &writing, 71);
            writing.messages = quote(20);
            refused(write, &writing, 71);
        }
    });
}

#[test]
fn messages_under_20_bytes() {
    each_writer(|write| {
        for at in 0..3 {
            for len in [0, 1, 19] {
                let mut messages = vec![quote(60); 3];
                messages[at] = quote(20);
                done(write, &of(&messages), &messages);
                messages[at] = quote(len);
                refused(write, &of(&messages), 71);
            }
        }
    });
}

#[test]
fn lengths_that_do_not_add_up() {
    each_writer(|write| {
        let good = of(&[quote(60), quote(36)]);
        let bytes = [0, 1, 20, 56, 95, 97, 100];
        for len in bytes {
            let mut writing = good.clone();
            writing.messages.resize(len, b'Q');
            refused(write, &writing, 71);
        }
        let lengths = [
            [60, 35],
            [60, 37],
            [59, 36],
            [60 + (1 << 16), 36],
            [60 + (1 << 31), 36 + (1 << 31)],
            [60u32.wrapping_sub(97), 36 + 97],
            [u32::MAX, u32::MAX],
            [u32::MAX, 97],
        ];
        for lengths in lengths {
            let mut writing = good.clone();
            writing.lengths = lengths.to_vec();
            refused(write, &writing, 71);
        }
        // 33 lengths that are 2^32 and the bytes lent.
        let mut writing = good;
        writing.lengths = vec![1 << 27; 31];
        writing.lengths.extend([(1 << 27) - 1000, 1096]);
        let sum: u64 = writing.lengths.iter().map(|&len| u64::from(len)).sum();
        assert_eq!(sum, (1 << 32) + 96);
        refused(write, &writing, 71);
    });
}

#[test]
fn a_control_message_among_others() {
    each_writer(|write| {
        for kind in *b"ITCO5KQ?\x00c\xFF" {
            done(write, &of(&[control(kind)]), &[control(kind)]);
            refused(write, &of(&[control(kind), quote(60)]), 72);
            refused(write, &of(&[quote(60), control(kind)]), 72);
            refused(write, &of(&[control(kind), control(kind)]), 72);
            refused(write, &of(&[quote(60), control(kind), quote(36)]), 72);
        }
        // Neither C in another place nor another category is a control message.
        let mut other = quote(60);
        other[1..].fill(b'C');
        done(
            write,
            &of(&[other.clone(), quote(20)]),
            &[other.clone(), quote(20)],
        );
        for category in *b"BDcQT\x00\xC3" {
            other[0] = category;
            done(
                write,
                &of(&[quote(20), other.clone()]),
                &[quote(20), other.clone()],
            );
        }
    });
}

#[test]
fn the_output() {
    each_writer(|write| {
        let messages = [quote(60), quote(36)];
        let mut writing = of(&messages);
        let needed = writing.needed();
        for room in [0, 1, 9, 10, 14, 55, needed - 1] {
            writing.room = room;
            refused(write, &writing, 73);
        }
        for room in [needed, needed + 1, 999, 1000, 1001, 70_000] {
            writing.room = room;
            done(write, &writing, &messages);
        }
        let mut lone = of(&[control(b'T')]);
        lone.room = 31;
        refused(write, &lone, 73);
    });
}

#[test]
fn checks_go_71_72_73() {
    each_writer(|write| {
        // Every check would refuse this call; the faults go one after another.
        let mut writing = of(&[control(b'C'), quote(60)]);
        writing.room = 0;
        writing.lengths[1] += 1;
        refused(write, &writing, 71);
        writing.lengths[1] -= 1;
        refused(write, &writing, 72);
        writing.messages[0] = b'Q';
        refused(write, &writing, 73);
        writing.room = writing.needed();
        assert_eq!(writing.run(write).0.number, 0);
        // 71 for the block's length before 72, and both before 73.
        let mut long = of(&[control(b'C'), quote(967)]);
        assert_eq!(long.needed(), 1001);
        refused(write, &long, 71);
        long.room = 0;
        refused(write, &long, 71);
    });
}

#[test]
fn sequence_numbers() {
    each_writer(|write| {
        let messages = vec![quote(20); 45];
        for sequence in [0, 1, u32::MAX - 45, u32::MAX - 44, u32::MAX - 1, u32::MAX] {
            let mut writing = of(&messages);
            writing.sequence = sequence;
            done(write, &writing, &messages);
        }
    });
}
