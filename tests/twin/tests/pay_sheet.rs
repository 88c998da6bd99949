//! The pay sheet (document 02, P8): cases made by hand, the order of the numbers, what the program
//! prints, and on random tapes that the shares keep the rules and that no others do.

mod common;
#[path = "common/plain_tapes.rs"]
mod plain_tapes;

use common::TICKET;
use haul_tape_twin::message::seal;
use haul_tape_twin::pay_sheet::{contractor, pay_sheet, printed, PaySheet};
use haul_tape_twin::tape::{nonce_of, Writer};
use haul_tape_twin::ticket::{Head, Ticket};
use plain_tapes::{plain, Values};
use std::fs;
use std::path::PathBuf;

/// The most that a ticket can have as its net.
const MOST_NET: u32 = 1_048_575;

/// A ticket of this truck and net, with a tare where there is room for one.
fn hauled(truck: u16, net: u32) -> Ticket {
    let tare = TICKET.tare.min(MOST_NET - net);
    Ticket {
        truck,
        gross: net + tare,
        tare,
        ..TICKET
    }
}

/// Tickets of these trucks and nets.
fn of(tickets: &[(u16, u32)]) -> Vec<Ticket> {
    let ticket = |&(truck, net): &(u16, u32)| hauled(truck, net);
    tickets.iter().map(ticket).collect()
}

/// What these tickets are answered.
fn paid(tickets: &[Ticket], rate: u64) -> Result<PaySheet, u8> {
    pay_sheet(&plain(tickets), rate)
}

/// A pay sheet with these contractors' shares; the others have 0.
fn sheet(pay: u64, shares: &[(usize, u64)]) -> Result<PaySheet, u8> {
    let mut sheet = PaySheet {
        pay,
        shares: [0; 16],
    };
    for &(contractor, share) in shares {
        sheet.shares[contractor] = share;
    }
    Ok(sheet)
}

#[test]
fn no_pay() {
    for rate in [0, 1, 185, 1_000_000] {
        assert_eq!(paid(&[], rate), sheet(0, &[]));
        assert_eq!(paid(&of(&[(5, 0), (1_023, 0)]), rate), sheet(0, &[]));
    }
    assert_eq!(paid(&of(&[(5, MOST_NET); 9]), 0), sheet(0, &[]));
}

/// 64 truck numbers each, and 63 for contractor 0, since there is no truck 0.
#[test]
fn blocks_of_trucks() {
    for truck in 1..=1_023 {
        let expected = (0..16).rfind(|first| 64 * first <= truck).unwrap();
        assert_eq!(contractor(truck), usize::from(expected));
        let one = paid(&[hauled(truck, 140_000)], 100);
        assert_eq!(one, sheet(14_000, &[(expected.into(), 14_000)]));
    }
    for (last, next, number) in [(63, 64, 0), (127, 128, 1), (511, 512, 7), (959, 960, 14)] {
        let two = of(&[(last, 3_000), (next, 5_000)]);
        assert_eq!(paid(&two, 1), sheet(8, &[(number, 3), (number + 1, 5)]));
    }
    let ends = of(&[(1, 1_000), (1_023, 2_000)]);
    assert_eq!(paid(&ends, 1), sheet(3, &[(0, 1), (15, 2)]));
}

/// The net of a contractor is summed before it is rounded, and the tape's too.
#[test]
fn rounding() {
    assert_eq!(paid(&of(&[(5, 999)]), 1), sheet(0, &[]));
    assert_eq!(paid(&of(&[(5, 1_000)]), 1), sheet(1, &[(0, 1)]));
    assert_eq!(paid(&of(&[(5, 500), (6, 500)]), 1), sheet(1, &[(0, 1)]));
    assert_eq!(paid(&of(&[(5, 1)]), 999), sheet(0, &[]));
    assert_eq!(paid(&of(&[(5, 1)]), 1_000), sheet(1, &[(0, 1)]));
    assert_eq!(paid(&of(&[(5, 1)]), 1_000_000), sheet(1_000, &[(0, 1_000)]));
    // 0.4, 0.3 and 0.3 cents make a cent; 0.4, 0.3 and 0.2 do not.
    let three = [(70, 300), (140, 400), (210, 300)];
    assert_eq!(paid(&of(&three), 1), sheet(1, &[(2, 1)]));
    assert_eq!(
        paid(&of(&[(70, 200), three[1], three[2]]), 1),
        sheet(0, &[])
    );
}

/// Cents left go to the largest remainders, and not to the largest shares or to who comes first.
#[test]
fn largest_remainders() {
    // 10.2, 1.9, 5.5 and 3.4 cents are 21: of the 2 left, 1 goes to 1.9 and 1 to 5.5.
    let four = of(&[(10, 10_200), (300, 1_900), (500, 5_500), (800, 3_400)]);
    let expected = sheet(21, &[(0, 10), (4, 2), (7, 6), (12, 3)]);
    assert_eq!(paid(&four, 1), expected);
    let turned_round: Vec<Ticket> = four.into_iter().rev().collect();
    assert_eq!(paid(&turned_round, 1), expected);
    // Remainders that differ by a thousandth.
    let close = of(&[(1, 499), (100, 501)]);
    assert_eq!(paid(&close, 1), sheet(1, &[(1, 1)]));
}

#[test]
fn ties() {
    // 0.5 cents each.
    let two = of(&[(700, 500), (200, 500)]);
    assert_eq!(paid(&two, 1), sheet(1, &[(3, 1)]));
    // 2.5, 0.5 and 1.5 cents are 4.5: the one left goes to the lowest number.
    let three = of(&[(1_000, 2_500), (640, 500), (70, 1_500)]);
    assert_eq!(paid(&three, 1), sheet(4, &[(1, 2), (10, 0), (15, 2)]));
    // Of 0.9, 0.7, 0.7 and 0.7 cents, 3 together, one of three ties has nothing.
    let four = of(&[(950, 700), (20, 700), (400, 700), (960, 900)]);
    assert_eq!(paid(&four, 1), sheet(3, &[(0, 1), (6, 1), (15, 1)]));
    // All sixteen: 999 thousandths each are 15.984 cents, and the last has nothing.
    let all: Vec<Ticket> = (0..16).rev().map(|c| hauled(64 * c + 63, 999)).collect();
    let shares: Vec<(usize, u64)> = (0..15).map(|c| (c, 1)).collect();
    assert_eq!(paid(&all, 1), sheet(15, &shares));
    // 63 thousandths each are 1.008 cents.
    let little: Vec<Ticket> = (0..16).map(|c| hauled(64 * c + 63, 63)).collect();
    assert_eq!(paid(&little, 1), sheet(1, &[(0, 1)]));
}

/// A contractor whose only trips were empty has no cent of those left, and other empty trips change
/// nothing.
#[test]
fn empty_trips() {
    let two = of(&[(100, 400), (200, 600)]);
    let expected = sheet(1, &[(3, 1)]);
    for gross in [0, 1, 250_000, MOST_NET] {
        for truck in [3, 100, 200, 1_023] {
            let empty = Ticket {
                truck,
                gross,
                tare: gross,
                ..TICKET
            };
            assert_eq!(paid(&[empty], 1_000_000), sheet(0, &[]));
            assert_eq!(paid(&[two[0], empty, two[1]], 1), expected);
        }
    }
}

/// Truck and net alone matter.
#[test]
fn both_forms() {
    let late = |truck, net| Ticket {
        form: 2,
        shovel: 63,
        tip: 1,
        grade: 9,
        loaded: 43_200,
        tipped: 86_399,
        ..hauled(truck, net)
    };
    let expected = sheet(21, &[(0, 10), (4, 2), (7, 6), (12, 3)]);
    let (a, b, c, d) = ((10, 10_200), (300, 1_900), (500, 5_500), (800, 3_400));
    let mixed = [
        hauled(a.0, a.1),
        late(b.0, b.1),
        hauled(c.0, c.1),
        late(d.0, d.1),
    ];
    assert_eq!(paid(&mixed, 1), expected);
    assert_eq!(paid(&[a, b, c, d].map(|(t, n)| late(t, n)), 1), expected);
}

/// The most pay that there can be: 5,000 tickets of the most net at the highest rate.
#[test]
fn the_most_pay() {
    let most = 5_000 * u64::from(MOST_NET) * 1_000;
    let one = vec![hauled(1_023, MOST_NET); 5_000];
    assert_eq!(paid(&one, 1_000_000), sheet(most, &[(15, most)]));
    assert_eq!(most, 5_242_875_000_000);
    let all: Vec<Ticket> = (0..5_000)
        .map(|i| hauled(i % 16 * 64 + 1, MOST_NET))
        .collect();
    let found = paid(&all, 1_000_000).unwrap();
    assert_eq!(found.pay, most);
    // 5,000 is 16 times 312 and 8 more.
    let by_tickets = |tickets| tickets * u64::from(MOST_NET) * 1_000;
    assert_eq!(found.shares[..8], [by_tickets(313); 8]);
    assert_eq!(found.shares[8..], [by_tickets(312); 8]);
}

/// 13 before 2 before 8.
#[test]
fn numbers() {
    let good = plain(&of(&[(5, 140_000)]));
    let mut bad = good.clone();
    bad[12] |= 1;
    let two = |first: &[u8], second: &[u8]| [first, second].concat();
    for rate in [1_000_001, 1_000_002, 1 << 32, 1_000_000_000_000, u64::MAX] {
        assert_eq!(pay_sheet(&good, rate), Err(13));
        assert_eq!(pay_sheet(&good[..12], rate), Err(13));
        assert_eq!(pay_sheet(&bad, rate), Err(13));
        assert_eq!(pay_sheet(&[], rate), Err(13));
    }
    for rate in [0, 1, 999_999, 1_000_000] {
        for length in [1, 12, 14, 25] {
            assert_eq!(pay_sheet(&two(&bad, &good)[..length], rate), Err(2));
        }
        assert_eq!(pay_sheet(&good.repeat(5_001), rate), Err(2));
        assert_eq!(pay_sheet(&bad.repeat(5_001), rate), Err(2));
        assert_eq!(pay_sheet(&bad, rate), Err(8));
        assert_eq!(pay_sheet(&two(&good, &bad), rate), Err(8));
        assert_eq!(pay_sheet(&two(&bad, &good), rate), Err(8));
        let last = two(&good.repeat(4_999), &bad);
        assert_eq!(pay_sheet(&last, rate), Err(8));
        assert!(pay_sheet(&good.repeat(5_000), rate).is_ok());
    }
}

/// The exact shares, in thousandths of a cent.
fn exact_shares(tickets: &[Ticket], rate: u64) -> [u64; 16] {
    let mut exact = [0; 16];
    for ticket in tickets {
        exact[usize::from(ticket.truck >> 6)] += u64::from(ticket.gross - ticket.tare) * rate;
    }
    exact
}

/// What must hold of a pay sheet, said by other means than the twin's: the pay; the shares' sum; each
/// share less than a cent from the exact one; and a cent more than the whole ones for those who have
/// fewer before them than there are cents left.
fn keeps_the_rules(exact: [u64; 16], found: &PaySheet) {
    let total: u64 = exact.iter().sum();
    assert!(1_000 * found.pay <= total && total < 1_000 * (found.pay + 1));
    assert_eq!(found.shares.iter().sum::<u64>(), found.pay);
    let left = cents_left(exact);
    assert!(left < 16);
    for c in 0..16 {
        assert!((1_000 * found.shares[c]).abs_diff(exact[c]) < 1_000);
        if exact[c] == 0 {
            assert_eq!(found.shares[c], 0);
        }
        let before = (0..16).filter(|&other| comes_before(exact, other, c));
        let gets_one = before.count() < left;
        assert_eq!(found.shares[c], exact[c] / 1_000 + u64::from(gets_one));
    }
}

/// How many whole cents the remainders make.
fn cents_left(exact: [u64; 16]) -> usize {
    let remainders = exact.map(|thousandths| thousandths % 1_000);
    (remainders.iter().sum::<u64>() / 1_000) as usize
}

/// Whether contractor `a` has a cent of those left before `b` does.
fn comes_before(exact: [u64; 16], a: usize, b: usize) -> bool {
    let [of_a, of_b] = [a, b].map(|c| exact[c] % 1_000);
    of_a > of_b || of_a == of_b && a < b
}

/// Of all ways to choose as many contractors as there are cents left, one alone leaves out nobody who
/// comes before one that is chosen; and it is the one found.
fn no_other(exact: [u64; 16], found: &PaySheet) {
    let keeps_the_order = |chosen: &u32| {
        let is_chosen = |c: &usize| chosen >> c & 1 == 1;
        (0..16).filter(is_chosen).all(|a| {
            let mut others = (0..16).filter(|c| !is_chosen(c));
            others.all(|b| comes_before(exact, a, b))
        })
    };
    let all: Vec<u32> = (0..1 << 16)
        .filter(|chosen: &u32| chosen.count_ones() as usize == cents_left(exact))
        .filter(keeps_the_order)
        .collect();
    let with_a_cent = (0..16).filter(|&c| found.shares[c] == exact[c] / 1_000 + 1);
    assert_eq!(all, [with_a_cent.map(|c| 1 << c).sum::<u32>()]);
}

impl Values {
    /// A tape of up to `most` tickets of a few contractors; nets are often equal, and some are 0.
    fn hauls(&mut self, most: u32, contractors: u32) -> Vec<Ticket> {
        let first = self.below(17 - contractors);
        let nets: Vec<u32> = (0..3).map(|_| self.below(MOST_NET + 1)).collect();
        let number = self.below(most + 1);
        let ticket = |_| {
            let truck = 64 * (first + self.below(contractors)) + self.below(64);
            let net = match self.below(5) {
                0 => 0,
                1 => self.below(MOST_NET + 1),
                2 => 10 * self.below(25_000),
                _ => nets[self.below(3) as usize],
            };
            Ticket {
                form: 1 + self.below(2) as u8,
                ..hauled(truck.max(1) as u16, net)
            }
        };
        (0..number).map(ticket).collect()
    }

    /// A rate, often a small or round one.
    fn rate(&mut self) -> u64 {
        let rate = match self.below(4) {
            0 => self.below(1_000_001),
            1 => 50 * self.below(20),
            2 => 1 + self.below(999),
            _ => [1, 185, 333, 999_999, 1_000_000][self.below(5) as usize],
        };
        rate.into()
    }
}

#[test]
fn random_tapes() {
    let mut values = Values(9);
    // how often so many cents were left; how often the last of them was between two equal remainders
    let (mut left, mut ties) = ([0; 16], 0);
    for _ in 0..20_000 {
        let contractors = 1 + values.below(16);
        let most = [3, 20, 80][values.below(3) as usize];
        let (tickets, rate) = (values.hauls(most, contractors), values.rate());
        let exact = exact_shares(&tickets, rate);
        keeps_the_rules(exact, &paid(&tickets, rate).unwrap());
        let cents = cents_left(exact);
        left[cents] += 1;
        let mut remainders = exact.map(|thousandths| thousandths % 1_000);
        remainders.sort();
        ties += u32::from(cents > 0 && remainders[16 - cents] == remainders[15 - cents]);
    }
    println!("cents left {left:?}, ties {ties}");
    assert!(left[..8].iter().all(|&times| times > 100) && ties > 500);
}

#[test]
fn no_other_shares_keep_the_rules() {
    let mut values = Values(10);
    for _ in 0..150 {
        let contractors = 1 + values.below(16);
        let (tickets, rate) = (values.hauls(40, contractors), values.rate());
        let found = paid(&tickets, rate).unwrap();
        no_other(exact_shares(&tickets, rate), &found);
    }
}

// ---- what the program prints

const KEY: [u8; 16] = *b"sixteen key byte";

/// Document 01, case (i).
const HEAD: Head = Head {
    device: 7,
    shift: 2,
    sheet: 1,
};

fn tape_of(key: &[u8], head: &Head, tickets: &[Ticket]) -> Vec<u8> {
    let n = tickets.len();
    let mut tape = vec![0; 25 + 13 * n];
    let mut writer = Writer::fresh();
    writer.start(key, head, &mut tape).unwrap();
    for (i, ticket) in tickets.iter().enumerate() {
        writer.add(ticket, &mut tape[9 + 13 * i..]).unwrap();
    }
    writer.finish(&mut tape[9 + 13 * n..]).unwrap();
    tape
}

/// What is printed for a first line, a key and a tape.
fn text(first: &str, key: &[u8], tape: &[u8]) -> String {
    String::from_utf8(printed(&[first.as_bytes(), key, tape].concat())).unwrap()
}

#[test]
fn printed_lines() {
    let hauls = of(&[(10, 10_200), (300, 1_900), (1_000, 400)]);
    let tape = tape_of(&KEY, &HEAD, &hauls);
    let expected = "PAY 12\n0 10\n1 0\n2 0\n3 0\n4 2\n5 0\n6 0\n7 0\n\
        8 0\n9 0\n10 0\n11 0\n12 0\n13 0\n14 0\n15 0\n";
    for rate in ["1\n", "01\n", "0000000000000000001\n"] {
        assert_eq!(text(rate, &KEY, &tape), expected);
    }
    let nothing = "PAY 0\n0 0\n1 0\n2 0\n3 0\n4 0\n5 0\n6 0\n7 0\n\
        8 0\n9 0\n10 0\n11 0\n12 0\n13 0\n14 0\n15 0\n";
    assert_eq!(text("0\n", &KEY, &tape), nothing);
    let empty = tape_of(&KEY, &HEAD, &[]);
    assert_eq!(text("1000000\n", &KEY, &empty), nothing);
}

#[test]
fn printed_refusals() {
    let tape = tape_of(&KEY, &HEAD, &[TICKET]);
    let high = ["1000001\n", "0001000001\n", "9999999999999999999\n"];
    for rate in high {
        assert_eq!(text(rate, &KEY, &tape), "REFUSED 13\n");
        assert_eq!(text(rate, &KEY[..15], &[]), "REFUSED 13\n");
        assert_eq!(text(rate, &[], &[]), "REFUSED 13\n");
        assert_eq!(text(rate, &KEY, &tape[..37]), "REFUSED 13\n");
    }
    assert_eq!(text("1000000\n", &KEY, &tape)[..4], *"PAY ");
    assert_eq!(text("1\n", &[], &[]), "REFUSED 2\n");
    assert_eq!(text("1\n", &KEY[..15], &[]), "REFUSED 2\n");
    assert_eq!(text("1\n", &KEY, &tape[..37]), "REFUSED 2\n");
    assert_eq!(text("1\n", &KEY, &vec![0; 65_026]), "REFUSED 2\n");
    assert_eq!(text("1\n", &KEY, &[0; 38]), "REFUSED 3\n");
    assert_eq!(text("1\n", &[1; 16], &tape), "REFUSED 7\n");
    let head: [u8; 9] = tape[..9].try_into().unwrap();
    let mut bad = tape.clone();
    seal(&KEY, &nonce_of(&head), &head, &[0xC1; 13], &mut bad[9..]).unwrap();
    assert_eq!(text("1\n", &KEY, &bad), "REFUSED 8\n");
    assert_eq!(text(high[0], &KEY, &bad), "REFUSED 13\n");
}

#[test]
fn printed_without_a_rate() {
    let tape = tape_of(&KEY, &HEAD, &[TICKET]);
    for first in [
        "",
        "\n",
        "1",
        "1\r\n",
        " 1\n",
        "1 \n",
        "-1\n",
        "+1\n",
        "1.5\n",
        "1,000\n",
        "0x1\n",
        "a\n",
        "1\0\n",
        "00000000000000000001\n",
        "10000000000000000000\n",
        "18446744073709551617\n",
        "99999999999999999999\n",
    ] {
        assert_eq!(text(first, &KEY, &tape), "NO RATE\n", "{first:?}");
        assert_eq!(text(first, &[], &[]), "NO RATE\n", "{first:?}");
    }
    // A key that begins with digits.
    assert_eq!(text("1", &[b'1'; 16], b"\n"), "REFUSED 13\n");
    assert_eq!(text("1", &[b'1'; 16], b"111\n"), "NO RATE\n");
}

// ---- the sample, samples/pay.tape, under the key of samples/shift.key

const SAMPLE_RATE: &str = "185\n";

/// A ticket with these fields; the places are shovel, tip point and grade, the times loaded and tipped.
fn trip(
    form: u8,
    truck: u16,
    places: (u8, u8, u8),
    times: (u32, u32),
    gross: u32,
    tare: u32,
) -> Ticket {
    Ticket {
        form,
        truck,
        shovel: places.0,
        tip: places.1,
        grade: places.2,
        loaded: times.0,
        tipped: times.1,
        gross,
        tare,
    }
}

/// Contractors 0, 1, 3, 7, 11 and 15; of 11 an empty trip alone. At 185 cents per tonne the remainders
/// of 0, 1, 3, 7 and 15 are 900, 950, 550, 550 and 100 thousandths of a cent, so that three cents are
/// left, and 3 has one before 7.
fn sample() -> Vec<u8> {
    let head = Head {
        device: 40_117,
        shift: 20_261,
        sheet: 4,
    };
    let tickets = [
        trip(1, 12, (1, 4, 2), (240, 1_310), 253_440, 111_100),
        trip(1, 64, (2, 4, 2), (505, 1_640), 312_650, 125_400),
        trip(1, 455, (2, 4, 3), (910, 2_185), 389_580, 163_400),
        trip(2, 207, (1, 7, 0), (1_330, 2_460), 270_650, 115_750),
        trip(1, 63, (1, 4, 2), (1_720, 2_890), 249_950, 111_350),
        trip(2, 730, (3, 9, 0), (2_400, 3_015), 118_400, 118_400),
        trip(1, 100, (2, 4, 2), (28_800, 29_930), 317_020, 125_600),
        trip(2, 470, (2, 4, 3), (43_150, 44_410), 383_100, 163_650),
        trip(2, 1_023, (63, 63, 9), (52_210, 53_745), 410_660, 166_800),
        trip(2, 207, (1, 7, 1), (85_120, 86_399), 277_130, 115_800),
    ];
    tape_of(&sample_file("shift.key"), &head, &tickets)
}

fn sample_path(name: &str) -> PathBuf {
    let samples = PathBuf::from(env!("CARGO_MANIFEST_DIR")).join("../../samples");
    samples.join(name)
}

fn sample_file(name: &str) -> Vec<u8> {
    fs::read(sample_path(name)).unwrap_or_else(|error| panic!("samples/{name}: {error}"))
}

#[test]
fn the_sample() {
    let tape = sample();
    assert_eq!(sample_file("pay.tape"), tape);
    let expected = sample_file("pay.txt");
    let printed = text(SAMPLE_RATE, &sample_file("shift.key"), &tape);
    assert_eq!(printed.as_bytes(), expected);
    let shares = [51_974, 70_054, 0, 58_503, 0, 0, 0, 82_441];
    let shares = [shares, [0, 0, 0, 0, 0, 0, 0, 45_114]].concat();
    let lines = shares.iter().enumerate().map(|(c, s)| format!("{c} {s}\n"));
    assert_eq!(
        printed,
        format!("PAY 308086\n{}", lines.collect::<String>())
    );
}

#[test]
#[ignore = "writes samples/pay.tape and samples/pay.txt"]
fn write_the_sample() {
    let tape = sample();
    let printed = text(SAMPLE_RATE, &sample_file("shift.key"), &tape);
    fs::write(sample_path("pay.tape"), tape).unwrap();
    fs::write(sample_path("pay.txt"), printed).unwrap();
}
