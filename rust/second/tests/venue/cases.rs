//! The worked cases: whole blocks in hex, a field group to a line.

use second::venue::build::{self, Header, Odd};
use second::venue::Converting;

use crate::run::{cut, lots};
use crate::CONVERTER;

fn bytes(hex: &str) -> Vec<u8> {
    let digits: Vec<u8> = hex.bytes().filter(u8::is_ascii_hexdigit).collect();
    let value = |digit: u8| char::from(digit).to_digit(16).expect("a hex digit") as u8;
    let pairs = digits.chunks_exact(2);
    pairs
        .map(|pair| 16 * value(pair[0]) + value(pair[1]))
        .collect()
}

/// The block is answered with this number, and with 0 by this run.
fn case(name: &str, block: &str, number: u8, run: &str) {
    let run = bytes(run);
    let converting = Converting {
        block: bytes(block),
        room: 3_600,
    };
    let (converted, output) = converting.run(CONVERTER.convert, &lots);
    assert_eq!(converted.number, number, "{name}");
    assert_eq!(converted.len, run.len(), "{name}");
    assert_eq!(output[..run.len()], run, "{name}");
}

#[test]
fn worked() {
    case(
        "W01 short round lot, one message",
        "0000340000000101091d
         002a51504e6a0b145839f5ae8b0120202020000000000000000049424d202003e8012c03ea00c8200000",
        0,
        "01010048000000010aed000c
         514b4e0018b0ac077cf31e8b000000000000000049424d202020202020202052000000000098968000000003000000000098e4a00000000220000000",
    );
    case(
        "W02 long round lot, rest dropped, pad byte",
        "00005c00000002010e67
         0051514b4e6a0b145839f5ae8b0120202020000030303030303749424d20202020202020204f000000000d8decc8000000fa000000000d8e00500000006320202020202020200000000000000000200000
         00",
        0,
        "01010048000000020b7e000c
         514b4e0018b0ac077cf31e8b000030303030303749424d20202020202020204f000000000d8decc800000002000000000d8e00500000000020000000",
    );
    case(
        "W03 short round lot with appendages",
        "00003e00000003010ea5
         003351504e6a0b145839f5ae8b0120202020000000000000000049424d202003e8012c03ea00c858010203e96303e900ffffff
         00",
        0,
        "0101006c000000031278000c
         514b4e0018b0ac077cf31e8b000000000000000049424d202020202020202052000000000098968000000003000000000098e4a00000000258010200000000000098bd9000000063000000000098bd900000000000000000270fd8f0000000ff",
    );
    case(
        "W04 odd lot short",
        "0000320000000401086e
         002851524e6a0b145839f5ae8b012020202000000000000000005a5420202053010103e91803eb00",
        0,
        "01010048000000040a4d000c
         514d4e0018b0ac077cf31e8b00000000000000005a542020202020202020205301010000000000000098bd90000000180000000000990bb000000000",
    );
    case(
        "W05 odd lot long, clear alone",
        "00003200000005010765
         0028514d4e6a0b145839f5ae8b0120202020000000000000000042524b2e41202020202020420000",
        0,
        "01010030000000050712000c
         514d4e0018b0ac077cf31e8b000000000000000042524b2e412020202020204200000000",
    );
    case(
        "W06 long round lot with appendages, crossed market",
        "00007600000006011549
         006c514b4e6a0b145839f5ae8b0120202020000000000000000049424d2020202020202020450000000000a7d8c0000004b00000000000989680000000c7202041202020202000000000000000004202010000000000a7d8c1070147ae147ae147ae01000000000089544003",
        0,
        "0101006c00000006121b000c
         514b4e0018b0ac077cf31e8b000000000000000049424d2020202020202020450000000000a7d8c00000000c000000000098968000000001420201000000000000a7d8c1000000070147ae147ae147ae00000001000000000089544000000003",
    );
    case(
        "W07 all four types in one block",
        "0000d80000000704260c
         002a51504e6a0b145839f5ae8b0120202020000031323341624349424d202003e8012c03ea00c8200000
         0051514b5000000007000000080220202020000000000000000041424344454670412e434c4f0000000000bc614e000000ff0000000000bc614f0000000a43412020202020200000000000000000200000
         002b51524e6a0b145839f5ae8b032020202000000000000000005a5420202058010203e91803eb0003ec01
         0028514d4e6a0b145839f5ae8b0420202020000000000000000042524b2e41202020202020420000",
        0,
        "010400f60000000729de0012004e008a00d2
         514b4e0018b0ac077cf31e8b000031323341624349424d202020202020202052000000000098968000000003000000000098e4a00000000220000000
         514b500000000001a13b8608000000000000000041424344454670412e434c4f0000000000bc614e000000190000000000bc614f0000000120000000
         514d4e0018b0ac077cf31e8b00000000000000005a542020202020202020205801020000000000000098bd90000000180000000000990bb00000000000000000009932c000000001
         514d4e0018b0ac077cf31e8b000000000000000042524b2e412020202020204200000000",
    );
    case(
        "W08 symbols not listed: undivided",
        "000086000000080217e7
         002a51504e6a0b145839f5ae8b0120202020000000000000000030314e202003e8012c03ea00c8200000
         0051514b4e6a0b145839f5ae8b0220202020000000000000000049424d58202020202020205200000000000f42400000006300000000001e8480ffffffff20202020202020200000000000000000200000
         00",
        0,
        "01020086000000081957000e004a
         514b4e0018b0ac077cf31e8b000000000000000030314e20202020202020205200000000009896800000012c000000000098e4a0000000c820000000
         514b4e0018b0ac077cf31e8b000000000000000049424d58202020202020205200000000000f42400000006300000000001e8480ffffffff20000000",
    );
    case(
        "W09 lots of 1, 10, 25 and 100",
        "0000da00000009042316
         0051514b4e6a0b145839f5ae8b0120202020000000000000000042524b2e412020202020205200000000000f42400000004d00000000001e84800000000120202020202020200000000000000000200000
         002a51504e6a0b145839f5ae8b0220202020000000000000000054454e20200064000900c80013200000
         002a51504e6a0b145839f5ae8b032020202000000000000000005a542020200064ffff00c80018200000
         002a51504e6a0b145839f5ae8b0420202020000000000000000049424d20200000006300000064200000
         00",
        0,
        "010401020000000922c80012004e008a00c6
         514b4e0018b0ac077cf31e8b000000000000000042524b2e412020202020205200000000000f42400000004d00000000001e84800000000120000000
         514b4e0018b0ac077cf31e8b000000000000000054454e20202020202020205200000000000f42400000000000000000001e84800000000120000000
         514b4e0018b0ac077cf31e8b00000000000000005a542020202020202020205200000000000f424000000a3d00000000001e84800000000020000000
         514b4e0018b0ac077cf31e8b000000000000000049424d20202020202020205200000000000000000000000000000000000000000000000120000000",
    );
    case(
        "W16 79: condition 4",
        "00005c0000000a010897
         0051514b4e6a0b145839f5ae8b0120202020000000000000000049424d20202020202020203400000000000000000000000000000000000000000000000020202020202020200000000000000000200000
         00",
        79,
        "",
    );
    case(
        "W23 79: line integrity alone",
        "0000240000000a0104f7
         001a43544e6a0b145839f5ae8b01202020200000000000000000",
        79,
        "",
    );
    case(
        "W24 78: control among others",
        "00004e0000000a020e0a
         002a51504e6a0b145839f5ae8b0120202020000000000000000049424d202003e8012c03ea00c8200000
         001a43544e6a0b145839f5ae8b02202020200000000000000000",
        78,
        "",
    );
}

fn header(pair: &[u8; 2]) -> Header {
    Header::new(pair, b'N', [0x6a0b_1458, 0x39f5_ae8b])
}

/// Q P with these prices and shares.
fn quote(bid: (u64, u32), offer: (u64, u32)) -> Vec<u8> {
    build::round_short(&header(b"QP"), *b"IBM  ", [bid, offer], &Odd::IDLE)
}

/// Q R with so many odd bids.
fn odd(bids: usize) -> Vec<u8> {
    let odd = Odd {
        clear: b'X',
        bids: vec![(1_001, 5); bids],
        offers: Vec::new(),
    };
    build::odd_short(&header(b"QR"), *b"IBM  ", &odd)
}

/// The run of a block of these messages under a number: count, length and number of each block.
fn packed(sequence: u32, messages: &[Vec<u8>]) -> Vec<(u8, usize, u32)> {
    let converting = Converting {
        block: build::block(sequence, messages),
        room: 3_600,
    };
    let (converted, output) = converting.run(CONVERTER.convert, &lots);
    assert_eq!(converted.number, 0);
    let number = |block: &[u8]| u32::from_be_bytes([block[4], block[5], block[6], block[7]]);
    let blocks = cut(&output[..converted.len]).into_iter();
    blocks
        .map(|block| (block[1], block.len(), number(block)))
        .collect()
}

/// W10: 23 quotes in two blocks, numbers past 2^32; the first message of each in hex.
#[test]
fn numbers_past_the_modulus() {
    let quotes: Vec<Vec<u8>> = (0..23)
        .map(|i| {
            quote(
                (1_000 + u64::from(i), 100 * i),
                (1_100 + u64::from(i), 50 * i),
            )
        })
        .collect();
    let block = build::block(0xffff_fffa, &quotes);
    assert_eq!(block[..10], bytes("0003d0fffffffa17c737"));
    assert_eq!(
        block[10..52],
        bytes(
            "002a51504e6a0b145839f5ae8b0120202020000000000000000049424d202003e80000044c0000200000"
        )
    );
    assert_eq!(
        block[52..94],
        bytes(
            "002a51504e6a0b145839f5ae8b0220202020000000000000000049424d202003e90064044d0032200000"
        )
    );
    assert_eq!(
        block[934..],
        bytes(
            "002a51504e6a0b145839f5ae8b1720202020000000000000000049424d202003fe08980462044c200000"
        )
    );
    let converting = Converting { block, room: 1_446 };
    let (converted, output) = converting.run(CONVERTER.convert, &lots);
    assert_eq!((converted.number, converted.len), (0, 1_446));
    let first = bytes(
        "010f03acfffffffaa3390028006400a000dc01180154019001cc02080244028002bc02f803340370
         514b4e0018b0ac077cf31e8b000000000000000049424d2020202020202020520000000000989680000000000000000000a7d8c00000000020000000",
    );
    let second = bytes(
        "010801fa0000000956c9001a0056009200ce010a0146018201be
         514b4e0018b0ac077cf31e8b000000000000000049424d20202020202020205200000000009ae0700000000f0000000000aa22b00000000720000000",
    );
    assert_eq!(output[..first.len()], first);
    assert_eq!(output[940..940 + second.len()], second);
}

/// W11 to W13 and W29: how messages are packed.
#[test]
fn packing() {
    let one = || quote((1_000, 300), (1_002, 200));
    let runs = packed(1, &[one(), odd(76), one()]);
    assert_eq!(runs, [(1, 72, 1), (1, 960, 2), (1, 72, 3)]);
    assert_eq!(packed(1, &[odd(79)]), [(1, 996, 1)]);
    assert_eq!(packed(31, &vec![odd(0); 29]), [(26, 998, 31), (3, 124, 57)]);
    let longest = packed(1, &[odd(79), odd(79), odd(79), odd(47)]);
    assert_eq!(longest.iter().map(|block| block.1).sum::<usize>(), 3_600);
}

/// W26, W27 and W28: the room.
#[test]
fn room() {
    let block = bytes(
        "0000340000000101091d
         002a51504e6a0b145839f5ae8b0120202020000000000000000049424d202003e8012c03ea00c8200000",
    );
    for (room, number, len) in [(0, 80, 0), (71, 80, 0), (72, 0, 72), (100, 0, 72)] {
        let converting = Converting {
            block: block.clone(),
            room,
        };
        let (converted, output) = converting.run(CONVERTER.convert, &lots);
        assert_eq!((converted.number, converted.len), (number, len));
        assert!((len..room).all(|at| output[at] == 0xA5 ^ at as u8));
    }
    let converting = Converting {
        block: build::block(1, &[build::other(&header(b"QA"), &[])]),
        room: 0,
    };
    assert_eq!(converting.run(CONVERTER.convert, &lots).0.number, 79);
}
