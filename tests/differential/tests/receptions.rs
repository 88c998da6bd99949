//! Two receptions of one tape: where they part, and the longer of two that do not.

use haul_tape::{longer, Head, Ticket};
use haul_tape_differential::both;
use haul_tape_differential::calls::write_tape;
use haul_tape_differential::random::{turned, Random};
use haul_tape_twin::receptions::{Part, Parted};

/// Both calls on receptions that do not part: `mast` has the longer, all of which is handed back.
#[track_caller]
fn together(first: &[u8], second: &[u8], mast: u32) {
    assert_eq!(both::parting(first, second), Ok(()));
    let heard = [first, second][mast as usize - 1];
    let bytes = heard.len();
    assert_eq!(both::longer(first, second), Part { mast, bytes });
    assert_eq!(longer(first, second).as_ptr_range(), heard.as_ptr_range());
}

/// Both calls on receptions that part, in both orders: the empty beginning of the first is handed
/// back.
#[track_caller]
fn parted(one: &[u8], other: &[u8], place: usize) {
    for (first, second) in [(one, other), (other, one)] {
        let answer = Err(Parted { number: 10, place });
        assert_eq!(both::parting(first, second), answer);
        assert_eq!(both::longer(first, second), Part { mast: 1, bytes: 0 });
        let handed_back = longer(first, second).as_ptr_range();
        assert_eq!(handed_back, first[..0].as_ptr_range());
    }
}

/// What two receptions must be answered, found byte by byte.
#[track_caller]
fn as_the_bytes_say(first: &[u8], second: &[u8]) {
    let shorter = first.len().min(second.len());
    match (0..shorter).find(|&place| first[place] != second[place]) {
        Some(place) => parted(first, second, place),
        None if first.len() < second.len() => together(first, second, 2),
        None => together(first, second, 1),
    }
}

/// What came up of pairs of receptions.
#[derive(Default)]
struct Tally {
    both_empty: u32,
    first_empty: u32,
    second_empty: u32,
    equal: u32,
    first_cut: u32,
    second_cut: u32,
    parted_at_first: u32,
    parted_between: u32,
    parted_at_last: u32,
    parted_first_shorter: u32,
    parted_second_shorter: u32,
    parted_equally_long: u32,
    longer_than_a_tape: u32,
}

impl Tally {
    fn see(&mut self, first: &[u8], second: &[u8]) {
        let (a, b) = (first.len(), second.len());
        let place = first.iter().zip(second).position(|(a, b)| a != b);
        let times = match place {
            None if a == 0 && b == 0 => &mut self.both_empty,
            None if a == 0 => &mut self.first_empty,
            None if b == 0 => &mut self.second_empty,
            None if a == b => &mut self.equal,
            None if a < b => &mut self.first_cut,
            None => &mut self.second_cut,
            Some(0) => &mut self.parted_at_first,
            Some(place) if place == a.min(b) - 1 => &mut self.parted_at_last,
            Some(_) => &mut self.parted_between,
        };
        *times += 1;
        if place.is_some() {
            self.parted_first_shorter += u32::from(a < b);
            self.parted_second_shorter += u32::from(a > b);
            self.parted_equally_long += u32::from(a == b);
        }
        self.longer_than_a_tape += u32::from(a.max(b) > haul_tape::MOST_TAPE_BYTES);
    }

    /// Sees that all came up, each so many times.
    fn check(&self, at_least: u32) {
        for (what, times) in [
            ("both are empty", self.both_empty),
            ("the first is empty", self.first_empty),
            ("the second is empty", self.second_empty),
            ("equal", self.equal),
            ("the first is cut", self.first_cut),
            ("the second is cut", self.second_cut),
            ("parted in the first byte", self.parted_at_first),
            ("parted between", self.parted_between),
            ("parted in the last byte", self.parted_at_last),
            ("parted, the first shorter", self.parted_first_shorter),
            ("parted, the second shorter", self.parted_second_shorter),
            ("parted, equally long", self.parted_equally_long),
        ] {
            println!("{what}: {times}");
            assert!(times >= at_least, "{what}: {times}");
        }
    }
}

/// All pairs of up to six bytes of two values.
#[test]
fn all_short_pairs() {
    let mut all: Vec<Vec<u8>> = Vec::new();
    for length in 0..=6 {
        for bits in 0..1_u32 << length {
            all.push((0..length).map(|i| (bits >> i & 1) as u8).collect());
        }
    }
    assert_eq!(all.len(), 127);
    let mut tally = Tally::default();
    for first in &all {
        for second in &all {
            tally.see(first, second);
            as_the_bytes_say(first, second);
        }
    }
    tally.check(1);
}

/// Every byte against every other.
#[test]
fn one_byte_each() {
    for a in 0..=255 {
        for b in 0..=255 {
            match a == b {
                true => together(&[a], &[b], 1),
                false => parted(&[a], &[b], 0),
            }
        }
    }
}

/// Every length up to 150 against every other, of equal bytes and of zeros.
#[test]
fn every_length() {
    let mut random = Random::for_test();
    for one in [random.bytes(150), vec![0; 150]] {
        let other = one.clone();
        for a in 0..=150 {
            for b in 0..=150 {
                let mast = if a < b { 2 } else { 1 };
                together(&one[..a], &other[..b], mast);
                together(&one[..a], &one[..b], mast);
            }
        }
    }
}

/// Every bit of 200 bytes turned: with equal lengths, at several offsets in memory, with either cut
/// behind the byte or somewhere later, and with either cut before it, where they do not part.
#[test]
fn every_bit_turned() {
    let mut random = Random::for_test();
    let one = random.bytes(200);
    for bit in 0..8 * one.len() {
        let place = bit / 8;
        let other = turned(&one, bit);
        parted(&one, &other, place);
        let offset = random.below(32);
        let moved = [&random.bytes(offset), &other[..]].concat();
        parted(&one, &moved[offset..], place);
        parted(&one[..=place], &other, place);
        parted(&one, &other[..=place], place);
        parted(&one[..=place], &other[..=place], place);
        let later = place + 1 + random.below(one.len() - place);
        parted(&one[..later], &other, place);
        parted(&one, &other[..later], place);
        together(&one[..place], &other, 2);
        together(&one, &other[..place], 1);
        together(&one[..place], &other[..place], 1);
    }
}

/// Several bytes differ, a byte is lost or there is one more: the first place counts.
#[test]
fn several_places() {
    let mut random = Random::for_test();
    for _ in 0..3_000 {
        let length = 2 + random.below(200);
        let one = random.bytes(length);
        let mut other = one.clone();
        let mut places: Vec<usize> = (0..2 + random.below(5))
            .map(|_| random.below(length))
            .collect();
        for &place in &places {
            other[place] = !one[place];
        }
        places.sort();
        parted(&one, &other, places[0]);

        let lost = random.below(length);
        let other = [&one[..lost], &one[lost + 1..]].concat();
        as_the_bytes_say(&one, &other);
        as_the_bytes_say(&other, &one);
        let more = [&one[..lost], &random.bytes(1), &one[lost..]].concat();
        as_the_bytes_say(&one, &more);
        as_the_bytes_say(&more, &one);
    }
}

/// A reception: all bytes, none, or some of them from the start.
fn cut(random: &mut Random, bytes: &[u8]) -> Vec<u8> {
    let length = match random.below(8) {
        0 => 0,
        1..=3 => bytes.len(),
        _ => random.below(bytes.len() + 1),
    };
    bytes[..length].to_vec()
}

/// Thousands of pairs, cut and changed in every way, some of them longer than any tape.
#[test]
fn random_pairs() {
    let mut random = Random::for_test();
    let mut tally = Tally::default();
    for round in 0..6_000 {
        let length = match round % 60 {
            0 => 70_000,
            1 => haul_tape::MOST_TAPE_BYTES,
            _ => random.pick(&[0, 1, 2, 8, 25, 38, 300, 2_000]),
        };
        let sent = random.bytes(length);
        let first = cut(&mut random, &sent);
        let mut second = cut(&mut random, &sent);
        if random.once_in(2) {
            let shorter = first.len().min(second.len());
            let place = match random.below(4) {
                0 => Some(0),
                1 => shorter.checked_sub(1),
                _ => Some(random.below(length + 1)),
            };
            if let Some(byte) = place.and_then(|place| second.get_mut(place)) {
                *byte ^= random.between(1, 255) as u8;
            }
        }
        tally.see(&first, &second);
        as_the_bytes_say(&first, &second);
    }
    tally.check(20);
    assert!(tally.longer_than_a_tape > 10);
}

#[test]
fn random_bytes() {
    let mut random = Random::for_test();
    let mut places = [0; 4];
    for _ in 0..5_000 {
        let [first, second] = [(); 2].map(|()| {
            let length = random.below(20);
            // few values, so that the first bytes are often equal
            let mut bytes = random.bytes(length);
            bytes.iter_mut().for_each(|byte| *byte &= 0x11);
            bytes
        });
        as_the_bytes_say(&first, &second);
        if let Err(parted) = both::parting(&first, &second) {
            places[parted.place.min(3)] += 1;
        }
    }
    println!("parted in byte 0, 1, 2, and behind: {places:?}");
    assert!(places.iter().all(|&times| times > 5), "{places:?}");
}

/// As many bytes as the longest tape has, and more: cut around powers of 2 and at the end, and parted
/// there.
#[test]
fn the_longest() {
    let mut random = Random::for_test();
    let sent = random.bytes(70_000);
    for one in [&sent[..haul_tape::MOST_TAPE_BYTES], &sent] {
        let mut other = one.to_vec();
        together(one, &other, 1);
        let last = one.len() - 1;
        let places = [0, 1, 8, 255, 256, 257, 32_767, 32_768, 65_535, 65_536, last];
        for place in places.into_iter().filter(|&place| place <= last) {
            together(one, &other[..place], 1);
            together(&one[..place], &other, 2);
            other[place] ^= random.between(1, 255) as u8;
            parted(one, &other, place);
            parted(&one[..=place], &other, place);
            parted(one, &other[..=place], place);
            other[place] = one[place];
        }
    }
}

/// Parts of one buffer, apart or one over the other: few values, so that they often agree.
#[test]
fn parts_of_one_buffer() {
    let mut random = Random::for_test();
    let mut tally = Tally::default();
    for _ in 0..300 {
        let period = 1 + random.below(6);
        let mut buffer = random.bytes(period).repeat(12);
        if random.once_in(2) {
            let place = random.below(buffer.len());
            buffer[place] ^= 1;
        }
        for _ in 0..30 {
            let [first, second] = [(); 2].map(|()| {
                let from = random.below(buffer.len() + 1);
                let to = from + random.below(buffer.len() + 1 - from);
                // starts a whole number of periods apart, as often as not
                match random.once_in(2) {
                    true => &buffer[from / period * period..to],
                    false => &buffer[from..to],
                }
            });
            tally.see(first, second);
            as_the_bytes_say(first, second);
        }
    }
    tally.check(5);
}

/// A tape, with what it opens to.
struct Tape {
    key: [u8; 16],
    bytes: Vec<u8>,
    tickets: u64,
    net: u64,
}

fn tape(random: &mut Random) -> Tape {
    let key = random.block();
    let head: Head = random.head();
    let number = random.below(30);
    let tickets: Vec<Ticket> = (0..number).map(|_| random.ticket()).collect();
    Tape {
        key,
        bytes: write_tape(&key, head, &tickets),
        tickets: number as u64,
        net: tickets.iter().map(|t| u64::from(t.gross - t.tare)).sum(),
    }
}

/// Tapes that the writer wrote, heard by two masts: where one of them heard all, what is handed back
/// opens; where both heard less it is refused; where they part it has no bytes.
#[test]
fn tapes_heard_by_two() {
    let mut random = Random::for_test();
    let (mut opened, mut refused) = (0, [0; 9]);
    for _ in 0..400 {
        let Tape {
            key,
            bytes: tape,
            tickets,
            net,
        } = tape(&mut random);
        let mut open = |first: &[u8], second: &[u8]| {
            let answer = both::open_tape(&key, longer(first, second), 13 * 30).answer;
            match answer {
                Ok(_) => opened += 1,
                Err(number) => refused[usize::from(number)] += 1,
            }
            answer
        };
        let copy = tape.clone();
        let length = random.below(tape.len());
        together(&tape, &copy, 1);
        together(&tape, &copy[..length], 1);
        together(&copy[..length], &tape, 2);
        assert_eq!(open(&tape, &copy), Ok((tickets, net)));
        assert_eq!(open(&tape, &copy[..length]), Ok((tickets, net)));
        assert_eq!(open(&copy[..length], &tape), Ok((tickets, net)));

        // Both heard less: by some bytes, or by whole tickets.
        let shorter = match random.once_in(2) {
            true => random.below(length + 1),
            false => length - length % 13,
        };
        together(&tape[..length], &copy[..shorter], 1);
        let whole_tickets = length >= 25 && (length - 25).is_multiple_of(13);
        let number = if whole_tickets { 7 } else { 2 };
        assert_eq!(open(&tape[..length], &copy[..shorter]), Err(number));
        let fewer = tape.len() - 13 * random.below((tape.len() - 25) / 13 + 1);
        if fewer < tape.len() {
            assert_eq!(open(&tape[..fewer - 1], &copy[..fewer]), Err(7));
        }

        // One heard a bit wrongly, both did, and both did differently.
        let bit = random.below(8 * tape.len());
        let wrong = turned(&tape, bit);
        parted(&tape, &wrong, bit / 8);
        assert_eq!(open(&tape, &wrong), Err(2));
        together(&wrong, &wrong[..length], 1);
        assert!(open(&wrong, &wrong[..length]).is_err());
        let other_bit = (bit + 1 + random.below(8 * tape.len() - 1)) % (8 * tape.len());
        let other_wrong = turned(&tape, other_bit);
        parted(&wrong, &other_wrong, bit.min(other_bit) / 8);
    }
    println!("opened {opened}, refused, by number: {refused:?}");
    assert!(opened >= 1_200 && refused[2] > 100 && refused[7] > 100);
}

/// Two tapes that differ in their sheet alone part within the head; a tape and the same with a ticket
/// more part in the first byte of its tag, or by chance behind it.
#[test]
fn two_tapes() {
    let mut random = Random::for_test();
    let mut at_first = 0;
    for _ in 0..300 {
        let key = random.block();
        let head = random.head();
        let tickets: Vec<Ticket> = (0..random.below(10)).map(|_| random.ticket()).collect();
        let tape = write_tape(&key, head, &tickets);
        let sheet = 1 + head.sheet % 1_000_000;
        let next = write_tape(&key, Head { sheet, ..head }, &tickets);
        as_the_bytes_say(&tape, &next);
        let place = both::parting(&tape, &next).unwrap_err().place;
        assert!((6..9).contains(&place), "{place}");

        let more = [&tickets[..], &[random.ticket()]].concat();
        let more = write_tape(&key, head, &more);
        as_the_bytes_say(&tape, &more);
        as_the_bytes_say(&more, &tape);
        let place = both::parting(&tape, &more).unwrap_err().place;
        let tag = tape.len() - 16;
        assert!(place >= tag, "{place}, and the tag begins at {tag}");
        at_first += u32::from(place == tag);
    }
    assert!(at_first > 280, "{at_first}");
}
