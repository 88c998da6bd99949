//! The program that prints pay sheets, target/bin/print_pay_sheet: what it prints for an input is the
//! twin's text.

use haul_tape::Ticket;
use haul_tape_differential::both;
use haul_tape_differential::calls::write_tape;
use haul_tape_differential::kit::{pack_anyway, sealed};
use haul_tape_differential::random::{tare_above_gross, turned, Random};
use haul_tape_twin::pay_sheet;
use std::io::{ErrorKind, Write};
use std::path::Path;
use std::process::{Command, Stdio};

const PROGRAM: &str = concat!(
    env!("CARGO_MANIFEST_DIR"),
    "/../../target/bin/print_pay_sheet"
);

/// Rates that are allowed.
const RATES: [u64; 8] = [0, 1, 185, 333, 1_000, 99_999, 999_999, 1_000_000];

/// Rates that are too high.
const HIGH_RATES: [u64; 6] = [
    1_000_001,
    1_048_576,
    (1 << 32) + 1,
    1_000_000_000_000_000_000,
    9_999_999_999_999_999_998,
    9_999_999_999_999_999_999,
];

/// What the program prints. It may end before it has read all.
fn ran(input: &[u8]) -> Vec<u8> {
    assert!(
        Path::new(PROGRAM).is_file(),
        "target/bin/print_pay_sheet is missing; 'tools/build print_pay_sheet' builds it"
    );
    let mut program = Command::new(PROGRAM)
        .stdin(Stdio::piped())
        .stdout(Stdio::piped())
        .stderr(Stdio::piped())
        .spawn()
        .expect("the program starts");
    let mut stdin = program.stdin.take().expect("a pipe");
    match stdin.write_all(input) {
        Err(error) if error.kind() == ErrorKind::BrokenPipe => {}
        written => written.expect("the program takes its input"),
    }
    drop(stdin);
    let output = program.wait_with_output().expect("the program ends");
    assert!(output.status.success(), "{}", output.status);
    both::same_bytes("standard error", &output.stderr, &[]);
    output.stdout
}

/// What program and twin both print for an input.
#[track_caller]
fn printed(input: &[u8]) -> String {
    let twin = pay_sheet::printed(input);
    let program = ran(input);
    assert!(
        program == twin,
        "the program prints\n{}and the twin\n{}for {} bytes that begin with {:02x?}",
        String::from_utf8_lossy(&program),
        String::from_utf8_lossy(&twin),
        input.len(),
        &input[..input.len().min(64)]
    );
    String::from_utf8(twin).expect("text")
}

/// The input of a rate, a key and a tape.
fn input(rate: u64, key: &[u8], tape: &[u8]) -> Vec<u8> {
    [format!("{rate}\n").as_bytes(), key, tape].concat()
}

/// The shares that were printed, with their sum held against the pay.
fn shares(text: &str) -> Vec<u64> {
    let lines: Vec<&str> = text.lines().collect();
    let (first, rest) = lines.split_first().expect("a line");
    let pay: u64 = first
        .strip_prefix("PAY ")
        .expect("a pay sheet")
        .parse()
        .expect("the pay");
    let share = |(contractor, line): (usize, &&str)| -> u64 {
        let (number, share) = line.split_once(' ').expect("two numbers");
        assert_eq!(number, contractor.to_string());
        share.parse().expect("a share")
    };
    let shares: Vec<u64> = rest.iter().enumerate().map(share).collect();
    assert_eq!(shares.len(), 16);
    assert_eq!(shares.iter().sum::<u64>(), pay);
    shares
}

/// The ticket with another truck and net.
fn hauled(ticket: Ticket, truck: u16, net: u32) -> Ticket {
    let tare = ticket.tare.min(1_048_575 - net);
    Ticket {
        truck,
        gross: net + tare,
        tare,
        ..ticket
    }
}

/// Tickets of both forms, of so many contractors from any first one. Nets are often one of two, or are
/// whole tens of kilograms, so that remainders are equal; one in eight is 0.
fn hauls(random: &mut Random, tickets: usize, contractors: usize) -> Vec<Ticket> {
    let first = random.below(17 - contractors);
    let nets = [random.between(0, 1_048_575), random.between(1, 250_000)];
    (0..tickets)
        .map(|_| {
            let ticket = random.ticket();
            let block = first + random.below(contractors);
            let place = random.pick(&[0, 1, 31, 62, 63]);
            let truck = (64 * block + place).max(1) as u16;
            let net = match random.below(8) {
                0 => 0,
                1 => ticket.gross - ticket.tare,
                2 => 10 * random.between(10_000, 25_000),
                3 => random.between(0, 20),
                _ => random.pick(&nets),
            };
            hauled(ticket, truck, net)
        })
        .collect()
}

/// A rate: one of those above, a round one, or any that is allowed.
fn rate(random: &mut Random) -> u64 {
    match random.below(3) {
        0 => random.pick(&RATES),
        1 => u64::from(50 * random.between(1, 20)),
        _ => u64::from(random.between(0, 1_000_000)),
    }
}

/// Of few contractors and of many; each share is held against the exact one besides.
#[test]
fn random_tapes() {
    let mut random = Random::for_test();
    for round in 0..800 {
        let (key, head) = (random.block(), random.head());
        let tickets = random.pick(&[0, 1, 2, 3, 8, 20, 60]);
        let tickets = hauls(&mut random, tickets, 1 + round % 16);
        let tape = write_tape(&key, head, &tickets);
        let rate = rate(&mut random);
        let shares = shares(&printed(&input(rate, &key, &tape)));
        let mut exact = [0; 16];
        for ticket in &tickets {
            exact[usize::from(ticket.truck / 64)] += u64::from(ticket.gross - ticket.tare) * rate;
        }
        for (share, exact) in shares.iter().zip(exact) {
            assert!((1_000 * share).abs_diff(exact) < 1_000);
        }
    }
}

/// Contractors whose remainders are all equal, in any order on the tape: the cents left go to the
/// lowest numbers.
#[test]
fn ties() {
    let mut random = Random::for_test();
    for _ in 0..300 {
        let (key, head) = (random.block(), random.head());
        let mut contractors: Vec<usize> = (0..16).collect();
        random.shuffle(&mut contractors);
        contractors.truncate(2 + random.below(15));
        // Whole tonnes more leave the remainder as it is.
        let (rate, net) = (random.between(1, 1_000).into(), random.between(1, 999));
        let tickets: Vec<Ticket> = contractors
            .iter()
            .map(|&c| {
                let truck = (64 * c + random.below(64)).max(1) as u16;
                hauled(random.ticket(), truck, net + 1_000 * random.between(0, 200))
            })
            .collect();
        let tape = write_tape(&key, head, &tickets);
        let shares = shares(&printed(&input(rate, &key, &tape)));

        let net = |t: &Ticket| u64::from(t.gross - t.tare);
        let left = tickets.len() as u64 * (net(&tickets[0]) * rate % 1_000) / 1_000;
        let with_a_cent: Vec<usize> = (0..16)
            .filter(|&c| {
                let ticket = tickets.iter().find(|t| usize::from(t.truck / 64) == c);
                ticket.is_some_and(|t| shares[c] > net(t) * rate / 1_000)
            })
            .collect();
        contractors.sort();
        assert_eq!(with_a_cent, contractors[..left as usize]);
    }
}

/// Every truck number, and those at the ends of the blocks together.
#[test]
fn blocks_of_trucks() {
    let mut random = Random::for_test();
    let (key, head) = (random.block(), random.head());
    let one_each: Vec<Ticket> = (1..=1_023)
        .map(|truck| hauled(random.ticket(), truck, 1_000 * u32::from(truck)))
        .collect();
    let tape = write_tape(&key, head, &one_each);
    let found = shares(&printed(&input(1, &key, &tape)));
    let sum_of_block = |c: u64| (64 * c..64 * c + 64).sum::<u64>();
    assert_eq!(found, (0..16).map(sum_of_block).collect::<Vec<u64>>());
    for first in (1..16).map(|c| 64 * c) {
        let two = [first - 1, first].map(|truck| hauled(random.ticket(), truck, 1_000));
        let tape = write_tape(&key, head, &two);
        let found = shares(&printed(&input(7, &key, &tape)));
        let c = usize::from(first / 64);
        assert_eq!(found[c - 1..=c], [7, 7]);
    }
}

/// Tapes of up to 5,000 tickets with the most net, of one contractor and of all, at the highest rates.
#[test]
fn the_longest_tapes() {
    let mut random = Random::for_test();
    for (tickets, contractors) in [(4_999, 16), (5_000, 1), (5_000, 16)] {
        let (key, head) = (random.block(), random.head());
        let first = random.below(17 - contractors);
        let tickets: Vec<Ticket> = (0..tickets)
            .map(|i| {
                let truck = 64 * (first + i % contractors) + 63;
                hauled(random.ticket(), truck as u16, 1_048_575)
            })
            .collect();
        let tape = write_tape(&key, head, &tickets);
        for rate in [999_999, 1_000_000] {
            let shares = shares(&printed(&input(rate, &key, &tape)));
            let net = tickets.len() as u64 * 1_048_575;
            assert_eq!(shares.iter().sum::<u64>(), net * rate / 1_000);
        }
        assert_eq!(printed(&input(1_000_001, &key, &tape)), "REFUSED 13\n");
        // One byte too many, and one ticket too many.
        for more in [&[0; 1][..], &[0; 13], &[0; 14], &[0; 70_000]] {
            let long = [&tape, more].concat();
            let refused = printed(&input(1, &key, &long));
            assert!(tape.len() < 65_025 || refused == "REFUSED 2\n");
        }
    }
    for length in [65_024, 65_025, 65_026, 65_536, 300_000] {
        let number = if length == 65_025 { 3 } else { 2 };
        let zeros = vec![0; 16 + length];
        let refused = format!("REFUSED {number}\n");
        assert_eq!(printed(&input(0, &zeros, &[])), refused);
        let longest_rate = [b"0000000000001000000\n", &zeros[..]].concat();
        assert_eq!(printed(&longest_rate), refused);
        assert_eq!(printed(&input(u64::MAX / 2, &zeros, &[])), "REFUSED 13\n");
        assert_eq!(printed(&zeros), "NO RATE\n");
        assert_eq!(printed(&vec![b'1'; length]), "NO RATE\n");
    }
}

/// Tapes that do not open, with every number; at a rate that is too high the number is 13.
#[test]
fn refused_tapes() {
    let mut random = Random::for_test();
    for _ in 0..60 {
        let (key, head) = (random.block(), random.head());
        let number = 1 + random.below(6);
        let tickets = hauls(&mut random, number, 4);
        let tape = write_tape(&key, head, &tickets);
        let mut broken = tickets.clone();
        broken[random.below(number)] = match random.below(4) {
            0 => Ticket {
                truck: 0,
                ..tickets[0]
            },
            1 => Ticket {
                form: 3,
                ..random.ticket_of_form(1)
            },
            2 => Ticket {
                tipped: 86_400,
                ..random.ticket_of_form(2)
            },
            _ => tare_above_gross(tickets[0]),
        };
        let broken: Vec<u8> = broken
            .iter()
            .flat_map(|&t| pack_anyway(t).unwrap())
            .collect();
        let no_head = [0, 0, 0, 0, 0, 0, 0x20, 0, 1];
        let bit = random.below(8 * tape.len());
        let cases = [
            (7, turned(&key, random.below(128)).to_vec(), tape.clone()),
            (
                7,
                key.to_vec(),
                turned(&tape, 72 + random.below(8 * tape.len() - 72)),
            ),
            (8, key.to_vec(), sealed(&key, head.pack().unwrap(), &broken)),
            (3, key.to_vec(), sealed(&key, no_head, &broken)),
            (
                2,
                key.to_vec(),
                tape[..tape.len() - 1 - random.below(12)].to_vec(),
            ),
            (2, key[..random.below(16)].to_vec(), Vec::new()),
            // A bit of the head may take it out of its range.
            (0, key.to_vec(), turned(&tape, bit)),
            (0, key.to_vec(), turned(&tape, bit % 72)),
        ];
        for (number, key, tape) in cases {
            let rate = rate(&mut random);
            let text = printed(&input(rate, &key, &tape));
            assert!(text.starts_with("REFUSED "));
            assert!(number == 0 || text == format!("REFUSED {number}\n"));
            let high = random.pick(&HIGH_RATES);
            assert_eq!(printed(&input(high, &key, &tape)), "REFUSED 13\n");
        }
    }
}

/// An input cut at every length, and with a byte more.
#[test]
fn cut_inputs() {
    let mut random = Random::for_test();
    let (key, head) = (random.block(), random.head());
    let tickets = hauls(&mut random, 3, 3);
    let tape = write_tape(&key, head, &tickets);
    for first in ["0\n", "185\n", "0001000000\n", "1000001\n"] {
        let whole = [first.as_bytes(), &key, &tape].concat();
        for length in 0..=whole.len() {
            let text = printed(&whole[..length]);
            assert_eq!(text == "NO RATE\n", length < first.len());
        }
        for more in 0..=255 {
            printed(&[&whole[..], &[more]].concat());
        }
    }
}

/// First lines that are a rate, and such as are none.
#[test]
fn first_lines() {
    let mut random = Random::for_test();
    let (key, head) = (random.block(), random.head());
    let tape = write_tape(&key, head, &hauls(&mut random, 12, 5));
    let text = |first: &[u8]| printed(&[first, &key, &tape].concat());
    let line = |first: &str| text(format!("{first}\n").as_bytes());

    for rate in RATES
        .into_iter()
        .chain((0..=19).map(|places| 10_u64.pow(places) - 1))
    {
        let expected = line(&rate.to_string());
        assert_eq!(expected.starts_with("PAY "), rate <= 1_000_000);
        for digits in 1..=19 {
            let padded = format!("{rate:0digits$}");
            assert_eq!(line(&padded), expected);
        }
        for digits in 20..=24 {
            assert_eq!(line(&format!("{rate:0digits$}")), "NO RATE\n");
        }
    }
    for rate in HIGH_RATES {
        assert_eq!(line(&rate.to_string()), "REFUSED 13\n");
    }
    for none in [
        "",
        " ",
        "\r",
        "185\r",
        " 185",
        "185 ",
        "\t185",
        "-1",
        "-0",
        "+1",
        "1.5",
        "1,5",
        "1_000",
        "1e3",
        "0x10",
        "a",
        "185a",
        "1\0",
        "\0",
        "/",
        ":",
        "1/",
        "1:",
        "10000000000000000000",
        "18446744073709551615",
        "18446744073709551616",
        "18446744073709551801",
        "99999999999999999999",
        "340282366920938463463374607431768211641",
    ] {
        assert_eq!(line(none), "NO RATE\n", "{none:?}");
        assert_eq!(printed(none.as_bytes()), "NO RATE\n", "{none:?}");
    }
    assert_eq!(printed(b""), "NO RATE\n");
    assert_eq!(printed(b"185"), "NO RATE\n");
    assert_eq!(printed(b"\n185\n"), "NO RATE\n");
    // Every byte before, in and behind the digits.
    for byte in 0..=255_u8 {
        text(&[byte, b'\n']);
        text(&[byte, b'1', b'8', b'\n']);
        text(&[b'1', byte, b'8', b'\n']);
        text(&[b'1', b'8', byte]);
        text(&[b'1', b'8', byte, b'\n']);
    }
}
