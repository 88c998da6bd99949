//! The dearest cutting (document 02, P9): groups of pieces, and the cutting that takes the most.
//!
//! A cutting of n bytes into k pieces is the list of their lengths, in order; none is empty.

use crate::number;

/// The most bytes that are cut.
pub const MOST_BYTES: u64 = 65_536;

/// The groups that a piece of so many bytes takes: a quarter, rounded up, and none if it is empty.
pub fn groups(bytes: u64) -> u64 {
    bytes.div_ceil(4)
}

/// The groups that pieces of these lengths take together.
pub fn groups_of(lengths: &[u32]) -> u64 {
    lengths.iter().map(|&length| groups(length.into())).sum()
}

/// Writes the lengths of the dearest cutting at the start of `lengths`, and answers its groups.
/// Answers 14 if there is no cutting or too much to cut, then 6 if the output has too little room.
pub fn dearest_cutting(bytes: u64, pieces: u64, lengths: &mut [u32]) -> Result<u64, u8> {
    let found = cutting(bytes, pieces)?;
    if lengths.len() < found.len() {
        return Err(number::OUTPUT);
    }
    lengths[..found.len()].copy_from_slice(&found);
    Ok(groups_of(&found))
}

/// The dearest cutting: of those that take the most groups the one whose first length is least, then
/// its second, and so on; answers 14 as [`dearest_cutting`].
pub fn cutting(bytes: u64, pieces: u64) -> Result<Vec<u32>, u8> {
    if pieces == 0 || pieces > bytes || bytes > MOST_BYTES {
        return Err(number::NO_CUTTING);
    }
    Ok(search(bytes as usize, pieces as usize))
}

/// The longest piece, but for the last, that has to be tried. A piece before the last that has more
/// than four bytes can hand four of them to the last: the one takes a group less, the other a group
/// more, and the cutting comes earlier in the order.
const LONGEST_TRIED: usize = 4;

/// Tables with more entries than this are not made.
const MOST_ENTRIES: usize = 4_000_000;

/// Chooses one length after the other: the least with which the rest can still reach the most.
fn search(bytes: usize, pieces: usize) -> Vec<u32> {
    let most = Most::new(bytes, pieces);
    let (mut lengths, mut taken) = (Vec::new(), 0);
    for cut in 0..pieces - 1 {
        let rest = most.of_the_rest(cut, taken);
        let length = tried(bytes - taken, pieces - cut)
            .find(|&b| groups(b as u64) + most.of_the_rest(cut + 1, taken + b) == rest)
            .expect("some length reaches the most");
        lengths.push(length as u32);
        taken += length;
    }
    lengths.push((bytes - taken) as u32);
    lengths
}

/// The lengths to be tried for the first of several pieces: each other one has a byte at least.
fn tried(bytes: usize, pieces: usize) -> impl Iterator<Item = usize> {
    1..=LONGEST_TRIED.min(bytes - (pieces - 1))
}

/// The most groups that the rest of a cutting can take, wherever it has come.
enum Most {
    /// By trying all lengths: first by the pieces that are cut, then by their bytes, from one byte each
    /// on.
    Tried(Vec<Vec<u64>>),
    /// Where the table would be too long: document 02's own number, for so many bytes and pieces. The
    /// tests hold it against the table.
    Told(usize, usize),
}

impl Most {
    fn new(bytes: usize, pieces: usize) -> Most {
        // how many numbers of bytes so many pieces may have
        let numbers = |cut: usize| (bytes - pieces).min((LONGEST_TRIED - 1) * cut) + 1;
        if (0..pieces).map(numbers).sum::<usize>() > MOST_ENTRIES {
            return Most::Told(bytes, pieces);
        }
        let last = pieces - 1;
        let mut table = vec![Vec::new(); pieces];
        table[last] = (0..numbers(last))
            .map(|more| groups((bytes - last - more) as u64))
            .collect();
        for cut in (0..last).rev() {
            let of_the_rest = |more: usize| {
                tried(bytes - cut - more, pieces - cut)
                    .map(|b| groups(b as u64) + table[cut + 1][more + b - 1])
                    .max()
                    .expect("a length can be tried")
            };
            table[cut] = (0..numbers(cut)).map(of_the_rest).collect();
        }
        Most::Tried(table)
    }

    /// With so many pieces cut, which have taken so many bytes.
    fn of_the_rest(&self, cut: usize, taken: usize) -> u64 {
        match self {
            Most::Tried(table) => table[cut][taken - cut],
            Most::Told(bytes, pieces) => told(bytes - taken, pieces - cut),
        }
    }
}

/// The most groups that n bytes take in k pieces, as document 02 tells it: (n + 3k) / 4, rounded down.
fn told(bytes: usize, pieces: usize) -> u64 {
    (bytes as u64 + 3 * pieces as u64) / 4
}

#[cfg(test)]
mod tests {
    use super::*;

    /// The most for every number of bytes and pieces, with every length tried for every piece.
    fn most_by_every_length(bytes: usize) -> Vec<Vec<Option<u64>>> {
        let mut table = vec![vec![None; bytes + 1]; bytes + 1];
        table[0][0] = Some(0);
        for pieces in 1..=bytes {
            for all in 1..=bytes {
                table[pieces][all] = (1..=all)
                    .filter_map(|b| Some(groups(b as u64) + table[pieces - 1][all - b]?))
                    .max();
            }
        }
        table
    }

    /// Both ways to the most, and the lengths that follow from them, beside a table of all lengths.
    #[test]
    fn the_most_by_every_length() {
        let table = most_by_every_length(90);
        for bytes in 1..=90 {
            for pieces in 1..=bytes {
                let expected = table[pieces][bytes].expect("there is a cutting");
                assert_eq!(told(bytes, pieces), expected, "{bytes} in {pieces}");
                let most = Most::new(bytes, pieces);
                assert!(matches!(most, Most::Tried(_)));
                assert_eq!(most.of_the_rest(0, 0), expected, "{bytes} in {pieces}");

                // the least length each time, of all that there are
                let (mut wanted, mut left) = (Vec::new(), bytes);
                for rest in (0..pieces).rev() {
                    let reaches = |b: &usize| {
                        let behind = table[rest][left - b];
                        behind.map(|behind| groups(*b as u64) + behind) == table[rest + 1][left]
                    };
                    let length = (1..=left).find(reaches).expect("a length");
                    wanted.push(length as u32);
                    left -= length;
                }
                assert_eq!(search(bytes, pieces), wanted);
                assert_eq!(groups_of(&wanted), expected);
            }
        }
        assert_eq!(table[3][2], None);
        assert_eq!(table[0][1], None);
    }

    /// Where the table is as long as it may be, document 02's number gives the same.
    #[test]
    fn both_ways_to_the_most() {
        for (bytes, pieces) in [
            (1, 1),
            (65_536, 1),
            (65_536, 2),
            (65_535, 3),
            (65_536, 65_536),
            (65_536, 65_500),
            (1_000, 600),
            (1_001, 250),
            (65_536, 1_000),
            (65_533, 1_601),
        ] {
            let most = Most::new(bytes, pieces);
            assert!(matches!(most, Most::Tried(_)), "{bytes} in {pieces}");
            let mut taken = 0;
            for (cut, length) in search(bytes, pieces).into_iter().enumerate() {
                let rest = told(bytes - taken, pieces - cut);
                assert_eq!(most.of_the_rest(cut, taken), rest, "{bytes} in {pieces}");
                taken += length as usize;
            }
            assert_eq!(taken, bytes);
        }
        for (bytes, pieces) in [(65_536, 2_000), (65_536, 32_768), (40_000, 39_000)] {
            assert!(matches!(Most::new(bytes, pieces), Most::Told(..)));
        }
    }
}
