//! Cab against crusher: the tickets of two opened tapes in pairs (document 02, P7).
//!
//! An opened tape is its plain bytes, 13 for each ticket. Positions are counted from 1, as in the
//! listing.

use crate::number;
use crate::tape::tickets_in;
use crate::ticket::{self, Ticket, TICKET_BYTES};

/// The most seconds that may lie between the tipped times of a pair.
pub const MOST_SECONDS_APART: u32 = 120;

/// Which tickets are paired, and which are left over.
#[derive(Clone, PartialEq, Eq, Debug)]
pub struct Pairing {
    /// The positions of each pair, on the first tape and on the second, in the first tape's order.
    pub pairs: Vec<[u32; 2]>,
    /// The positions left over on the first tape, in its order.
    pub left_first: Vec<u32>,
    /// The positions left over on the second tape, in its order.
    pub left_second: Vec<u32>,
}

/// How many pairs there are, and how many tickets are left over on either tape.
#[derive(Clone, Copy, PartialEq, Eq, Debug)]
pub struct Paired {
    pub pairs: usize,
    pub left_first: usize,
    pub left_second: usize,
}

/// Pairs the tickets of two opened tapes, and writes each list of positions at the start of its
/// output: two numbers for a pair, one for a ticket left over. Answers 2 if a length is not 13n with
/// n at most 5,000, then 8 if a ticket does not unpack, then 12 if a truck's tipped times fall, then
/// 6 if an output is too short; each is tried on both tapes before the next.
pub fn pair_tapes(
    first: &[u8],
    second: &[u8],
    pairs: &mut [u32],
    left_first: &mut [u32],
    left_second: &mut [u32],
) -> Result<Paired, u8> {
    let found = pairing(first, second)?;
    let positions = found.pairs.concat();
    if pairs.len() < positions.len()
        || left_first.len() < found.left_first.len()
        || left_second.len() < found.left_second.len()
    {
        return Err(number::OUTPUT);
    }
    pairs[..positions.len()].copy_from_slice(&positions);
    left_first[..found.left_first.len()].copy_from_slice(&found.left_first);
    left_second[..found.left_second.len()].copy_from_slice(&found.left_second);
    Ok(Paired {
        pairs: found.pairs.len(),
        left_first: found.left_first.len(),
        left_second: found.left_second.len(),
    })
}

/// The pairing of two opened tapes; answers 2, 8 or 12 as [`pair_tapes`].
pub fn pairing(first: &[u8], second: &[u8]) -> Result<Pairing, u8> {
    for plain in [first, second] {
        tickets_in(plain.len()).ok_or(number::LENGTH)?;
    }
    let first = tickets_of(first)?;
    let second = tickets_of(second)?;
    if times_fall(&first) || times_fall(&second) {
        return Err(number::TIMES_FALL);
    }
    Ok(search(&first, &second))
}

/// All tickets of a tape; answers 8 if one does not unpack.
fn tickets_of(plain: &[u8]) -> Result<Vec<Ticket>, u8> {
    plain.chunks(TICKET_BYTES).map(ticket::unpack).collect()
}

/// Whether some ticket has a smaller tipped time than one of the same truck before it.
pub fn times_fall(tickets: &[Ticket]) -> bool {
    tickets.iter().enumerate().any(|(place, later)| {
        tickets[..place]
            .iter()
            .any(|earlier| earlier.truck == later.truck && earlier.tipped > later.tipped)
    })
}

/// Whether two tickets, one of either tape, may be a pair.
pub fn may_pair(a: &Ticket, b: &Ticket) -> bool {
    a.truck == b.truck && a.tipped.abs_diff(b.tipped) <= MOST_SECONDS_APART
}

/// The tickets of the first tape come in tape order, and each is paired with the earliest ticket of
/// the second that fits it and has no partner yet. Times are not looked at beyond that: only where
/// none fall is this a largest pairing.
pub fn search(first: &[Ticket], second: &[Ticket]) -> Pairing {
    let mut free = vec![true; second.len()];
    let (mut pairs, mut left_first) = (Vec::new(), Vec::new());
    for (i, ticket) in first.iter().enumerate() {
        match (0..second.len()).find(|&j| free[j] && may_pair(ticket, &second[j])) {
            Some(j) => {
                free[j] = false;
                pairs.push([position(i), position(j)]);
            }
            None => left_first.push(position(i)),
        }
    }
    let left_second = (0..second.len()).filter(|&j| free[j]).map(position);
    Pairing {
        pairs,
        left_first,
        left_second: left_second.collect(),
    }
}

/// A place counted from 0, as a position.
fn position(place: usize) -> u32 {
    place as u32 + 1
}
