//! Two masts hear one tape: where their receptions part, and the longer one (document 02, P5).
//!
//! A reception is any bytes, of any length. Two of them part unless one is the beginning of the
//! other; the empty one is the beginning of every other.

use crate::number;

/// The receptions part: number 10 and the place, counted from 0, of the first byte in which they do.
#[derive(Clone, Copy, PartialEq, Eq, Debug)]
pub struct Parted {
    pub number: u8,
    pub place: usize,
}

/// A part of what a mast received: its first bytes.
#[derive(Clone, Copy, PartialEq, Eq, Debug)]
pub struct Part {
    /// 1 or 2.
    pub mast: u32,
    pub bytes: usize,
}

/// Answers 10, with the place, if the receptions part.
pub fn parting(first: &[u8], second: &[u8]) -> Result<(), Parted> {
    if first.starts_with(second) || second.starts_with(first) {
        return Ok(());
    }
    // As many bytes as the two share at the start lie before the place.
    let pairs = first.iter().zip(second);
    Err(Parted {
        number: number::RECEPTIONS,
        place: pairs.take_while(|(a, b)| a == b).count(),
    })
}

/// The longer reception, in the mast's own buffer: the first mast's if they are equal, and its
/// empty start if the two part.
pub fn longer<'a>(first: &'a [u8], second: &'a [u8]) -> &'a [u8] {
    let part = longer_part(first, second);
    let heard = if part.mast == 1 { first } else { second };
    &heard[..part.bytes]
}

/// The part that [`longer`] hands back, told as mast and length.
pub fn longer_part(first: &[u8], second: &[u8]) -> Part {
    let (mast, bytes) = if first.starts_with(second) {
        (1, first.len())
    } else if second.starts_with(first) {
        (2, second.len())
    } else {
        (1, 0)
    };
    Part { mast, bytes }
}

#[cfg(test)]
mod tests {
    use super::*;
    use crate::tape::{open_tape, Writer};
    use crate::testing::{XorShift, TICKET};
    use crate::ticket::Head;

    fn parted(place: usize) -> Result<(), Parted> {
        Err(Parted { number: 10, place })
    }

    /// Whether the two are one part of one buffer, and not just equal bytes.
    fn same_part(one: &[u8], other: &[u8]) -> bool {
        one.as_ptr_range() == other.as_ptr_range()
    }

    /// Both calls on receptions that do not part: `mast` has the longer.
    fn check_longer(first: &[u8], second: &[u8], mast: u32) {
        let expected = [first, second][mast as usize - 1];
        let bytes = expected.len();
        assert_eq!(parting(first, second), Ok(()));
        assert!(same_part(longer(first, second), expected));
        assert_eq!(longer_part(first, second), Part { mast, bytes });
    }

    /// Both calls on receptions that part, either way round.
    fn check_parted(one: &[u8], other: &[u8], place: usize) {
        for (first, second) in [(one, other), (other, one)] {
            assert_eq!(parting(first, second), parted(place));
            assert!(same_part(longer(first, second), &first[..0]));
            assert_eq!(longer_part(first, second), Part { mast: 1, bytes: 0 });
        }
    }

    #[test]
    fn both_empty() {
        let buffer = [1, 2, 3, 4];
        for (from, other) in [(0, 3), (3, 0), (4, 0), (2, 2)] {
            check_longer(&buffer[from..from], &buffer[other..other], 1);
        }
        check_longer(&[], &[], 1);
    }

    #[test]
    fn one_empty() {
        let heard = [0, 1, 2, 0xFF];
        let nothing = [7];
        for length in 1..=heard.len() {
            check_longer(&heard[..length], &nothing[..0], 1);
            check_longer(&nothing[..0], &heard[..length], 2);
        }
    }

    #[test]
    fn one_byte() {
        for a in 0..=255 {
            for b in 0..=255 {
                if a == b {
                    check_longer(&[a], &[b], 1);
                } else {
                    check_parted(&[a], &[b], 0);
                }
            }
        }
    }

    /// Equal bytes in two buffers: the first mast's is handed back, whichever buffer that is.
    #[test]
    fn equal() {
        let one: Vec<u8> = (0..=255).collect();
        let other = one.clone();
        for length in [1, 2, 25, 256] {
            check_longer(&one[..length], &other[..length], 1);
            check_longer(&other[..length], &one[..length], 1);
        }
    }

    #[test]
    fn one_shorter() {
        let one: Vec<u8> = (0..=255).collect();
        let other = one.clone();
        for length in [1, 2, 24, 25, 255] {
            check_longer(&one, &other[..length], 1);
            check_longer(&one[..length], &other, 2);
        }
        // What is longer by zeros is longer all the same.
        check_longer(&[0; 5], &[0; 6], 2);
        check_longer(&[0; 6], &[0; 5], 1);
    }

    /// At each place, by each single bit; with equal lengths, and with one cut behind the place.
    #[test]
    fn parted_in_one_byte() {
        let one: Vec<u8> = (100..140).collect();
        for place in 0..one.len() {
            for bit in 0..8 {
                let mut other = one.clone();
                other[place] ^= 1 << bit;
                check_parted(&one, &other, place);
                check_parted(&one[..=place], &other, place);
                check_parted(&one, &other[..=place], place);
                check_parted(&one[..=place], &other[..=place], place);
                // Cut before the place they do not part.
                check_longer(&one[..place], &other, 2);
                check_longer(&one, &other[..place], 1);
            }
        }
    }

    /// The first of several places counts.
    #[test]
    fn parted_in_many_bytes() {
        check_parted(&[1, 2, 3, 4], &[1, 9, 3, 9], 1);
        check_parted(&[1, 2, 3, 4], &[9, 9, 9, 9], 0);
        check_parted(&[1, 2, 3], &[1, 2, 4, 3], 2);
        // A byte lost on the way moves those behind it.
        check_parted(&[1, 2, 3, 4], &[1, 3, 4], 1);
        check_parted(&[1, 2, 3, 4], &[2, 3, 4], 0);
    }

    /// Both receptions in one buffer, apart or one over the other.
    #[test]
    fn one_buffer() {
        let buffer = [5, 6, 5, 6, 5, 7];
        check_longer(&buffer, &buffer, 1);
        check_longer(&buffer[..4], &buffer, 2);
        check_longer(&buffer[..2], &buffer[2..4], 1);
        check_longer(&buffer[2..4], &buffer[..2], 1);
        check_longer(&buffer[..3], &buffer[2..4], 1);
        check_longer(&buffer[..2], &buffer[2..5], 2);
        check_parted(&buffer[..4], &buffer[2..], 3);
        check_parted(&buffer, &buffer[1..], 0);
    }

    /// All pairs of up to five bytes of two values, against what a place must be: alike before it,
    /// and unlike there.
    #[test]
    fn all_short_pairs() {
        let mut all: Vec<Vec<u8>> = vec![];
        for length in 0..=5 {
            all.extend((0..1 << length).map(|n| (0..length).map(|i| n >> i & 1).collect()));
        }
        assert_eq!(all.len(), 63);
        for first in &all {
            for second in &all {
                let shorter = first.len().min(second.len());
                let places: Vec<usize> = (0..shorter)
                    .filter(|&p| first[..p] == second[..p] && first[p] != second[p])
                    .collect();
                match places[..] {
                    [] if first.len() >= second.len() => check_longer(first, second, 1),
                    [] => check_longer(first, second, 2),
                    [place] => check_parted(first, second, place),
                    _ => panic!("{first:?} and {second:?} part first in two places"),
                }
            }
        }
    }

    /// Long ones, cut anywhere, some with a byte changed; longer than any tape too.
    #[test]
    fn random_receptions() {
        let mut random = XorShift::new(71);
        for _ in 0..300 {
            let length = [3, 700, 65_025, 70_000][random.below(4)];
            let mut one = random.bytes(length);
            let mut other = one.clone();
            one.truncate(1 + random.below(length));
            other.truncate(1 + random.below(length));
            let mast = if one.len() >= other.len() { 1 } else { 2 };
            check_longer(&one, &other, mast);

            let place = random.below(one.len().min(other.len()));
            other[place] ^= random.between(1, 255) as u8;
            check_parted(&one, &other, place);
        }
    }

    /// The part goes to the opener: a whole tape opens, whichever mast heard it. A tag is not looked
    /// at: what both heard wrongly does not part, and the opener refuses it.
    #[test]
    fn to_the_opener() {
        let (key, mut tape, mut out) = ([9; 16], [0; 38], [0; 13]);
        let head = Head {
            device: 7,
            shift: 2,
            sheet: 1,
        };
        let mut writer = Writer::fresh();
        writer.start(&key, &head, &mut tape).unwrap();
        writer.add(&TICKET, &mut tape[9..]).unwrap();
        writer.finish(&mut tape[22..]).unwrap();

        let mut open =
            |first: &[u8], second: &[u8]| open_tape(&key, longer(first, second), &mut out);
        for length in 0..=38 {
            assert_eq!(open(&tape, &tape[..length]), Ok((1, 140_000)));
            assert_eq!(open(&tape[..length], &tape), Ok((1, 140_000)));
        }
        assert_eq!(open(&tape[..20], &tape[..37]), Err(2));
        let mut wrong = tape;
        wrong[37] ^= 1;
        assert_eq!(open(&wrong, &wrong), Err(7));
        assert_eq!(open(&wrong, &tape[..37]), Err(7));
        // Parted, nothing is left to open.
        assert_eq!(open(&wrong, &tape), Err(2));
    }
}
