//! Groups and the dearest cutting (document 02, P9): pieces counted by hand, in the machine and by
//! themselves; every cutting of few bytes; the numbers and their order.

mod common;

use common::TICKET;
use haul_tape_twin::cutting::{cutting, dearest_cutting, groups, groups_of};
use haul_tape_twin::machine::{Kind, Machine, Phase};
use haul_tape_twin::tape::Writer;
use haul_tape_twin::ticket::Head;

const KEY: [u8; 16] = [1; 16];
const NONCE: [u8; 16] = [2; 16];

/// Bytes of a piece and the groups that it takes.
const KNOWN: [(usize, u64); 14] = [
    (0, 0),
    (1, 1),
    (2, 1),
    (3, 1),
    (4, 1),
    (5, 2),
    (7, 2),
    (8, 2),
    (9, 3),
    (13, 4),
    (16, 4),
    (17, 5),
    (65_535, 16_384),
    (65_536, 16_384),
];

#[test]
fn groups_by_hand() {
    for (bytes, expected) in KNOWN {
        assert_eq!(groups(bytes as u64), expected, "{bytes}");
    }
    assert_eq!(groups_of(&[]), 0);
    assert_eq!(groups_of(&[1, 4, 5]), 4);
}

/// A machine that has begun.
fn begun(kind: Kind) -> Machine {
    let mut machine = Machine::fresh(kind);
    machine.begin(&KEY, &NONCE).unwrap();
    assert_eq!(machine.groups(), 0);
    machine
}

fn text(machine: &mut Machine, piece: &[u8]) {
    match machine.kind() {
        Kind::Sealing => machine.seal_text(piece, &mut vec![0; piece.len()]),
        Kind::Checking => machine.check_text(piece),
    }
    .unwrap();
}

/// One piece, as data and as text, and both.
#[test]
fn a_piece_in_the_machine() {
    for kind in [Kind::Sealing, Kind::Checking] {
        for (bytes, expected) in KNOWN {
            let piece = vec![7; bytes];
            let mut machine = begun(kind);
            machine.data(&piece).unwrap();
            assert_eq!(machine.groups(), expected, "{bytes} of data");
            text(&mut machine, &piece);
            assert_eq!(machine.groups(), 2 * expected, "{bytes} of each");
            let mut machine = begun(kind);
            text(&mut machine, &piece);
            assert_eq!(machine.groups(), expected, "{bytes} of text");
        }
    }
}

/// Piece by piece: bytes left over from one piece do not go to the next.
#[test]
fn pieces_by_themselves() {
    for kind in [Kind::Sealing, Kind::Checking] {
        let mut machine = begun(kind);
        let mut expected = 0;
        for (bytes, more) in [(1, 1), (1, 1), (0, 0), (2, 1), (3, 1), (5, 2), (0, 0)] {
            machine.data(&vec![7; bytes]).unwrap();
            expected += more;
            assert_eq!(machine.groups(), expected);
        }
        for (bytes, more) in [(0, 0), (1, 1), (4, 1), (6, 2), (0, 0), (33, 9)] {
            text(&mut machine, &vec![7; bytes]);
            expected += more;
            assert_eq!(machine.groups(), expected);
        }
        assert_eq!(expected, 19);
    }
}

/// Refused calls count nothing, and neither do begin and close; the count stays after a close.
#[test]
fn what_counts_nothing() {
    let long = vec![7; 65_537];
    let mut sealing = Machine::fresh(Kind::Sealing);
    assert_eq!(sealing.data(&[7; 9]), Err(1));
    assert_eq!(sealing.seal_text(&[7; 9], &mut [0; 9]), Err(1));
    assert_eq!(sealing.begin(&KEY[1..], &NONCE), Err(2));
    assert_eq!(sealing.groups(), 0);
    sealing.begin(&KEY, &NONCE).unwrap();
    sealing.data(&[7; 5]).unwrap();
    assert_eq!(sealing.data(&long), Err(5));
    assert_eq!(sealing.begin(&KEY, &NONCE), Err(1));
    assert_eq!(sealing.check_text(&[7; 5]), Err(1));
    assert_eq!(sealing.seal_text(&[7; 5], &mut [0; 4]), Err(6));
    assert_eq!(sealing.seal_text(&long, &mut []), Err(5));
    assert_eq!(sealing.groups(), 2);
    sealing.seal_text(&[7; 5], &mut [0; 5]).unwrap();
    assert_eq!(sealing.data(&[7; 5]), Err(1));
    assert_eq!(sealing.seal_close(&mut [0; 15]), Err(6));
    assert_eq!(sealing.groups(), 4);
    sealing.seal_close(&mut [0; 16]).unwrap();
    assert_eq!((sealing.groups(), sealing.phase()), (4, Phase::Closed));
    assert_eq!(sealing.seal_text(&[7; 5], &mut [0; 5]), Err(1));
    assert_eq!(sealing.groups(), 4);

    let mut checking = begun(Kind::Checking);
    checking.check_text(&[7; 9]).unwrap();
    assert_eq!(checking.seal_text(&[7; 9], &mut [0; 9]), Err(1));
    assert_eq!(checking.check_text(&long), Err(5));
    assert_eq!(checking.check_close(&[0; 15]), Err(2));
    assert_eq!(checking.groups(), 3);
    assert_eq!(checking.check_close(&[0; 16]), Err(7));
    assert_eq!((checking.groups(), checking.phase()), (3, Phase::Closed));
    assert_eq!(checking.check_text(&[7; 9]), Err(1));
    assert_eq!(checking.groups(), 3);
}

/// Ended machines that are alike but for their cuttings have the same tag and steps; their groups may
/// differ.
#[test]
fn other_cuttings_have_other_groups() {
    let ended = |lengths: &[usize]| {
        let mut machine = begun(Kind::Sealing);
        let mut tag = [0; 16];
        for &length in lengths {
            text(&mut machine, &vec![7; length]);
        }
        machine.seal_close(&mut tag).unwrap();
        (tag, machine.steps(), machine.groups())
    };
    let whole = ended(&[9]);
    for (lengths, groups) in [
        (&[9][..], 3),
        (&[0, 9, 0], 3),
        (&[4, 5], 3),
        (&[1, 8], 3),
        (&[1, 1, 7], 4),
        (&[1; 9], 9),
    ] {
        assert_eq!(ended(lengths), (whole.0, whole.1, groups), "{lengths:?}");
    }
}

/// A head is a piece of 9 bytes, and a ticket one of 13.
#[test]
fn groups_of_a_tape() {
    let head = Head {
        device: 7,
        shift: 2,
        sheet: 1,
    };
    let mut writer = Writer::fresh();
    assert_eq!(writer.start(&KEY, &head, &mut [0; 8]), Err(6));
    assert_eq!(writer.groups(), 0);
    writer.start(&KEY, &head, &mut [0; 9]).unwrap();
    assert_eq!(writer.groups(), 3);
    for tickets in 1..=5 {
        writer.add(&TICKET, &mut [0; 13]).unwrap();
        assert_eq!(writer.add(&TICKET, &mut [0; 12]), Err(6));
        assert_eq!(writer.groups(), 3 + 4 * tickets);
    }
    writer.finish(&mut [0; 16]).unwrap();
    assert_eq!(writer.groups(), 23);
}

/// Every cutting of so many bytes into so many pieces, none empty, in order of the first length, then
/// the second, and so on.
fn every_cutting(bytes: u32, pieces: u32) -> Vec<Vec<u32>> {
    if pieces == 0 {
        return match bytes {
            0 => vec![vec![]],
            _ => vec![],
        };
    }
    let mut all = Vec::new();
    for first in 1..=bytes {
        for rest in every_cutting(bytes - first, pieces - 1) {
            all.push([&[first], &rest[..]].concat());
        }
    }
    all
}

/// All cuttings of up to 16 bytes: the first of those that take the most.
#[test]
fn beside_every_cutting() {
    let mut tried = 0;
    for bytes in 1..=16 {
        for pieces in 1..=bytes {
            let all = every_cutting(bytes, pieces);
            assert!(all.is_sorted());
            let most = all.iter().map(|lengths| groups_of(lengths)).max().unwrap();
            let dearest: Vec<_> = all
                .iter()
                .filter(|lengths| groups_of(lengths) == most)
                .collect();
            let found = cutting(bytes.into(), pieces.into()).unwrap();
            assert_eq!(&found, dearest[0], "{bytes} in {pieces}");
            assert_eq!(most, u64::from((bytes + 3 * pieces) / 4));
            let mut lengths = vec![99; bytes as usize];
            let answer = dearest_cutting(bytes.into(), pieces.into(), &mut lengths);
            assert_eq!(answer, Ok(most));
            tried += all.len();
        }
    }
    assert_eq!(tried, (1 << 16) - 1);
}

#[test]
fn cuttings_by_hand() {
    for (bytes, pieces, expected, most) in [
        (1, 1, &[1][..], 1),
        (5, 1, &[5], 2),
        (2, 2, &[1, 1], 2),
        (8, 2, &[1, 7], 3),
        (9, 2, &[1, 8], 3),
        (10, 2, &[1, 9], 4),
        (12, 3, &[1, 1, 10], 5),
        (65_536, 1, &[65_536], 16_384),
        (65_536, 4, &[1, 1, 1, 65_533], 16_387),
    ] {
        let mut lengths = vec![99; expected.len()];
        let answer = dearest_cutting(bytes, pieces, &mut lengths);
        assert_eq!((answer, &lengths[..]), (Ok(most), expected));
    }
}

/// Many bytes in many pieces: the lengths add up, and take document 02's number of groups.
#[test]
fn long_cuttings() {
    for bytes in [1, 2, 3, 4, 5, 1_000, 4_097, 65_533, 65_534, 65_535, 65_536] {
        for pieces in [1, 2, 3, 7, 100, 1_500, 32_768, bytes / 2, bytes - 1, bytes] {
            if pieces == 0 || pieces > bytes {
                continue;
            }
            let lengths = cutting(bytes, pieces).unwrap();
            assert_eq!(lengths.len() as u64, pieces);
            assert!(lengths.iter().all(|&length| length > 0));
            let sum: u64 = lengths.iter().map(|&length| u64::from(length)).sum();
            assert_eq!(sum, bytes);
            assert_eq!(groups_of(&lengths), (bytes + 3 * pieces) / 4);
            // no cutting comes before one that has a byte in each piece but the last
            assert!(lengths[..lengths.len() - 1].iter().all(|&b| b == 1));
        }
    }
}

/// 14 first, whatever the room; then 6, and nothing is written.
#[test]
fn numbers() {
    let mut room = [99; 8];
    for (bytes, pieces) in [
        (0, 0),
        (0, 1),
        (1, 0),
        (1, 2),
        (4, 5),
        (65_536, 0),
        (65_536, 65_537),
        (65_537, 1),
        (65_537, 0),
        (65_537, 65_537),
        (1 << 32, 1),
        (u64::MAX, 1),
        (5, (1 << 32) + 2),
        (u64::MAX, u64::MAX),
        (0, u64::MAX),
    ] {
        for length in [0, 1, 8] {
            let answer = dearest_cutting(bytes, pieces, &mut room[..length]);
            assert_eq!(answer, Err(14), "{bytes} in {pieces}");
        }
        assert_eq!(cutting(bytes, pieces), Err(14));
    }
    assert_eq!(dearest_cutting(1, 1, &mut []), Err(6));
    for length in 0..5 {
        assert_eq!(dearest_cutting(9, 5, &mut room[..length]), Err(6));
    }
    assert_eq!(dearest_cutting(65_536, 65_536, &mut room), Err(6));
    assert_eq!(room, [99; 8]);
    for length in 5..=8 {
        let mut room = [99; 8];
        assert_eq!(dearest_cutting(9, 5, &mut room[..length]), Ok(6));
        assert_eq!(room, [1, 1, 1, 1, 5, 99, 99, 99]);
    }
}
