//! Whole messages: sealed, opened, damaged, cut short and refused.

use haul_tape::{message, Refusal};
use haul_tape_differential::both::{self, Ran};
use haul_tape_differential::random::{turned, Random, WRONG_TAG_BYTES};

/// Lengths around the ends of words of 4, 16, 32 and 64 bytes.
const LENGTHS: [usize; 14] = [0, 1, 3, 4, 5, 15, 16, 17, 31, 32, 33, 63, 64, 65];

struct Message {
    key: Vec<u8>,
    nonce: Vec<u8>,
    data: Vec<u8>,
    text: Vec<u8>,
}

fn random_message(random: &mut Random, data_bytes: usize, text_bytes: usize) -> Message {
    Message {
        key: random.bytes(16),
        nonce: random.bytes(16),
        data: random.bytes(data_bytes),
        text: random.bytes(text_bytes),
    }
}

/// The length of the tag that a call is given. The calls that are given none mean sixteen.
type TagBytes = Option<usize>;

fn seal(m: &Message, tag_bytes: TagBytes, room: usize) -> Ran<usize> {
    match tag_bytes {
        None => both::seal(&m.key, &m.nonce, &m.data, &m.text, room),
        Some(t) => both::seal_tag(&m.key, &m.nonce, &m.data, &m.text, t, room),
    }
}

fn open(m: &Message, sealed: &[u8], tag_bytes: TagBytes, room: usize) -> Ran<usize> {
    open_with(&m.key, &m.nonce, &m.data, sealed, tag_bytes, room)
}

fn open_with(
    key: &[u8],
    nonce: &[u8],
    data: &[u8],
    sealed: &[u8],
    tag_bytes: TagBytes,
    room: usize,
) -> Ran<usize> {
    match tag_bytes {
        None => both::open(key, nonce, data, sealed, room),
        Some(t) => both::open_tag(key, nonce, data, sealed, t, room),
    }
}

/// Seals a message and opens it again, with outputs that are exact, longer, and too short by one.
/// Answers the sealed bytes.
fn there_and_back(m: &Message, tag_bytes: TagBytes) -> Vec<u8> {
    let length = m.text.len() + tag_bytes.unwrap_or(16);
    let exact = seal(m, tag_bytes, length);
    assert_eq!(exact.answer, Ok(length));
    let longer = seal(m, tag_bytes, length + 9);
    assert_eq!(longer.out[..length], exact.out);
    assert_eq!(longer.out[length..], both::pattern(length + 9)[length..]);
    let short = seal(m, tag_bytes, length - 1);
    assert_eq!(short.answer, Err(6));
    let sealed = exact.out;

    let length = m.text.len();
    let opened = open(m, &sealed, tag_bytes, length);
    assert_eq!(opened.answer, Ok(length));
    assert_eq!(opened.out, m.text);
    open(m, &sealed, tag_bytes, length + 9);
    if length > 0 {
        let short = open(m, &sealed, tag_bytes, length - 1);
        assert_eq!(short.answer, Err(6));
    }

    let Message {
        key,
        nonce,
        data,
        text,
    } = m;
    let vectors = match tag_bytes {
        None => (
            message::seal_to_vec(key, nonce, data, text),
            message::open_to_vec(key, nonce, data, &sealed),
        ),
        Some(t) => {
            // A short tag is the last bytes of the sixteen.
            let (mut whole, n) = (seal(m, None, length + 16).out, length);
            whole.drain(n..n + 16 - t);
            assert_eq!(sealed, whole);
            (
                message::seal_tag_to_vec(key, nonce, data, text, t),
                message::open_tag_to_vec(key, nonce, data, &sealed, t),
            )
        }
    };
    assert_eq!(vectors, (Ok(sealed.clone()), Ok(text.clone())));
    sealed
}

/// Opens the message with one bit turned in each of its parts.
fn damaged(random: &mut Random, m: &Message, sealed: &[u8], tag_bytes: TagBytes) {
    let room = m.text.len() + random.below(3);
    let opens_to_7 = |key: &[u8], nonce: &[u8], data: &[u8], sealed: &[u8]| {
        let opened = open_with(key, nonce, data, sealed, tag_bytes, room);
        assert_eq!(opened.answer, Err(7));
        assert_eq!(opened.out, both::pattern(room));
    };
    let key = turned(&m.key, random.below(128));
    opens_to_7(&key, &m.nonce, &m.data, sealed);
    let nonce = turned(&m.nonce, random.below(128));
    opens_to_7(&m.key, &nonce, &m.data, sealed);
    if !m.data.is_empty() {
        let data = turned(&m.data, random.below(8 * m.data.len()));
        opens_to_7(&m.key, &m.nonce, &data, sealed);
    }
    if !m.text.is_empty() {
        let ciphertext_bit = random.below(8 * m.text.len());
        opens_to_7(&m.key, &m.nonce, &m.data, &turned(sealed, ciphertext_bit));
    }
    let tag_bit = 8 * m.text.len() + random.below(8 * tag_bytes.unwrap_or(16));
    opens_to_7(&m.key, &m.nonce, &m.data, &turned(sealed, tag_bit));
}

#[test]
fn every_pair_of_lengths() {
    let mut random = Random::for_test();
    for data_bytes in LENGTHS {
        for text_bytes in LENGTHS {
            let m = random_message(&mut random, data_bytes, text_bytes);
            for tag_bytes in [None, Some(random.tag_bytes())] {
                let sealed = there_and_back(&m, tag_bytes);
                damaged(&mut random, &m, &sealed, tag_bytes);
            }
        }
    }
}

#[test]
fn random_lengths() {
    let mut random = Random::for_test();
    for _ in 0..4_000 {
        let (data_bytes, text_bytes) = (random.below(150), random.below(300));
        let m = random_message(&mut random, data_bytes, text_bytes);
        let sealed = there_and_back(&m, None);
        damaged(&mut random, &m, &sealed, None);
    }
}

#[test]
fn random_lengths_of_tags() {
    let mut random = Random::for_test();
    for round in 0..3_600 {
        let (data_bytes, text_bytes) = (random.below(100), random.below(200));
        let m = random_message(&mut random, data_bytes, text_bytes);
        let tag_bytes = Some(8 + round % 9);
        let sealed = there_and_back(&m, tag_bytes);
        damaged(&mut random, &m, &sealed, tag_bytes);
        // At another length than it was sealed with.
        let other = random.tag_bytes();
        let room = sealed.len() - 8;
        let ran = open(&m, &sealed, Some(other), room);
        match Some(other) == tag_bytes {
            true => assert_eq!(ran.answer, Ok(text_bytes)),
            false if sealed.len() < other => assert_eq!(ran.answer, Err(2)),
            false => assert_eq!(ran.answer, Err(7)),
        }
    }
}

/// A tag with one bit turned, for every bit of every length.
#[test]
fn every_bit_of_a_tag() {
    let mut random = Random::for_test();
    for tag_bytes in 8..=16 {
        for text_bytes in [0, 11] {
            let m = random_message(&mut random, 5, text_bytes);
            let sealed = there_and_back(&m, Some(tag_bytes));
            for bit in 0..8 * tag_bytes {
                let sealed = turned(&sealed, 8 * text_bytes + bit);
                let ran = open(&m, &sealed, Some(tag_bytes), text_bytes + 2);
                assert_eq!(ran.answer, Err(7));
                assert_eq!(ran.out, both::pattern(text_bytes + 2));
            }
        }
    }
}

/// 9 whatever else is wrong.
#[test]
fn lengths_that_no_tag_has() {
    let mut random = Random::for_test();
    let good = random_message(&mut random, 5, 21);
    let sealed = there_and_back(&good, None);
    let long = vec![1; 65_553];
    for wrong in WRONG_TAG_BYTES.map(Some) {
        for key_bytes in [16, 0, 15, 17] {
            for nonce_bytes in [16, 17] {
                for (data, text) in [(&good.data, &good.text), (&long, &long)] {
                    let m = Message {
                        key: [&good.key[..], &[1]].concat()[..key_bytes].to_vec(),
                        nonce: [&good.nonce[..], &[1]].concat()[..nonce_bytes].to_vec(),
                        data: data.clone(),
                        text: text.clone(),
                    };
                    for room in [0, 21, 37, 60] {
                        for sealed in [&sealed[..], &sealed[..29], &sealed[..7], &[], &long] {
                            let ran = open(&m, sealed, wrong, room);
                            assert_eq!(ran.answer, Err(9));
                            assert_eq!(ran.out, both::pattern(room));
                        }
                        let ran = seal(&m, wrong, room);
                        assert_eq!(ran.answer, Err(9));
                        assert_eq!(ran.out, both::pattern(room));
                    }
                }
            }
        }
        let Message {
            key,
            nonce,
            data,
            text,
        } = &good;
        let wrong = wrong.expect("a length");
        let vector = message::seal_tag_to_vec(key, nonce, data, text, wrong);
        assert_eq!(vector, Err(Refusal::TagLength));
        let vector = message::open_tag_to_vec(key, nonce, data, &sealed, wrong);
        assert_eq!(vector, Err(Refusal::TagLength));
    }
}

#[test]
fn the_longest() {
    let mut random = Random::for_test();
    for (data_bytes, text_bytes) in [
        (0, 65_535),
        (0, 65_536),
        (65_535, 0),
        (65_536, 0),
        (65_536, 65_536),
        (9, 511),
        (9, 512),
        (9, 513),
        (9, 8_191),
        (9, 8_192),
        (9, 8_193),
    ] {
        let m = random_message(&mut random, data_bytes, text_bytes);
        for tag_bytes in [None, Some(8), Some(random.tag_bytes())] {
            let sealed = there_and_back(&m, tag_bytes);
            damaged(&mut random, &m, &sealed, tag_bytes);
        }
    }
    for (data_bytes, text_bytes) in [(0, 65_537), (65_537, 0), (65_537, 65_537), (65_536, 65_537)] {
        let m = random_message(&mut random, data_bytes, text_bytes);
        for tag_bytes in (8..=16).map(Some).chain([None]) {
            let length = text_bytes + tag_bytes.unwrap_or(16);
            let sealed = random.bytes(length);
            for room in [0, length - 1, length] {
                let ran = seal(&m, tag_bytes, room);
                assert_eq!(ran.answer, Err(5));
                let ran = open(&m, &sealed, tag_bytes, room);
                assert_eq!(ran.answer, Err(5));
            }
        }
    }
}

#[test]
fn cut_short() {
    let mut random = Random::for_test();
    let m = random_message(&mut random, 7, 40);
    let sealed = there_and_back(&m, None);
    for length in 0..sealed.len() {
        for room in [0, 24, 40] {
            let ran = open(&m, &sealed[..length], None, room);
            let text_bytes = length.checked_sub(16);
            let expected = text_bytes.map_or(2, |bytes| if room < bytes { 6 } else { 7 });
            assert_eq!(ran.answer, Err(expected));
        }
    }
}

/// Sealed with a tag of one length, cut, and opened with every other.
#[test]
fn cut_short_with_lengths_of_tags() {
    let mut random = Random::for_test();
    let m = random_message(&mut random, 7, 20);
    for sealed_with in 8..=16 {
        let sealed = there_and_back(&m, Some(sealed_with));
        for length in 0..=sealed.len() {
            for opened_with in 8..=16 {
                let uncut = sealed_with == opened_with && length == sealed.len();
                for room in [0, 12, 20, 28] {
                    let ran = open(&m, &sealed[..length], Some(opened_with), room);
                    let expected = match length.checked_sub(opened_with) {
                        None => Err(2),
                        Some(text_bytes) if room < text_bytes => Err(6),
                        Some(text_bytes) if uncut => Ok(text_bytes),
                        Some(_) => Err(7),
                    };
                    assert_eq!(ran.answer, expected);
                }
            }
        }
    }
}

/// Any sizes, so that several numbers apply: 9 must be given where it does, else the smallest.
#[test]
fn wrong_sizes_together() {
    let mut random = Random::for_test();
    let mut seen = [0; 10];
    for _ in 0..3_000 {
        let size = |random: &mut Random| random.pick(&[0, 15, 16, 16, 16, 16, 16, 16, 17, 32]);
        let long = |random: &mut Random| match random.below(8) {
            0 => 65_537,
            1 => 65_552 + random.below(2),
            _ => random.below(40),
        };
        let (key, nonce) = (size(&mut random), size(&mut random));
        let (key, nonce) = (random.bytes(key), random.bytes(nonce));
        let (data, text) = (long(&mut random), long(&mut random));
        let (data, text) = (vec![3; data], vec![4; text]);
        let room = random.pick(&[0, 7, 8, 15, 16, 40, 60, 65_553]);
        let tag_bytes = random.any_tag_bytes();
        let tag_bytes = random.pick(&[None, Some(tag_bytes)]);
        let m = Message {
            key,
            nonce,
            data,
            text,
        };
        for ran in [
            seal(&m, tag_bytes, room),
            open(&m, &m.text, tag_bytes, room),
        ] {
            if let Err(number) = ran.answer {
                assert_eq!(ran.out, both::pattern(room));
                seen[usize::from(number)] += 1;
            }
        }
    }
    assert!([2, 5, 6, 7, 9].iter().all(|&number| seen[number] > 0));
}
