use crate::{exports, Refusal};
#[cfg(feature = "alloc")]
use crate::{MOST_TICKETS, TICKET_BYTES};
#[cfg(feature = "alloc")]
use alloc::{vec, vec::Vec};

/// How many pairs two tapes have, and how many tickets are left over.
///
/// On either tape `pairs` plus the tickets left over is the number of its tickets.
#[derive(Clone, Copy, PartialEq, Eq, Debug)]
pub struct Paired {
    /// The pairs at the start of the first output.
    pub pairs: usize,
    /// The positions at the start of the second output: tickets left over on the first tape.
    pub left_first: usize,
    /// The positions at the start of the third output: tickets left over on the second tape.
    pub left_second: usize,
}

/// Pairs the tickets of two opened tapes: same truck, tipped at most 120 seconds apart, each ticket
/// in at most one pair.
///
/// The tickets of the first tape come in tape order, and each is paired with the earliest ticket of
/// the second that fits it and has no partner yet; no other pairing that keeps these rules has more
/// pairs. A truck's tipped times must not fall from one of its tickets to the next on the same tape;
/// equal times are allowed.
///
/// Positions are counted from 1, as in the listing. Written are, at the start of the outputs: of each
/// pair the first tape's position and the second's, in the first tape's order; and the positions of
/// the tickets left over, each tape's in its own order. For tapes of n and m tickets there is always
/// room in outputs of min(n, m), n and m. Takes 36 KiB of the stack.
///
/// ```
/// use haul_tape::{pair_tapes, Paired, Refusal, Ticket};
///
/// let plain = |tipped: &[(u16, u32)]| {
///     let packed = tipped.iter().map(|&(truck, tipped)| {
///         let ticket = Ticket {
///             form: 1,
///             truck,
///             shovel: 2,
///             tip: 3,
///             grade: 4,
///             loaded: 600,
///             tipped,
///             gross: 250_000,
///             tare: 110_000,
///         };
///         ticket.pack()
///     });
///     Ok::<_, Refusal>(packed.collect::<Result<Vec<_>, _>>()?.concat())
/// };
/// let cab = plain(&[(5, 1_000), (12, 1_300), (5, 2_000), (12, 2_500)])?;
/// let crusher = plain(&[(12, 1_310), (5, 1_120), (12, 2_700)])?;
///
/// let (mut pairs, mut left_cab, mut left_crusher) = ([[0; 2]; 3], [0; 4], [0; 3]);
/// let paired = pair_tapes(&cab, &crusher, &mut pairs, &mut left_cab, &mut left_crusher)?;
/// assert_eq!(paired, Paired { pairs: 2, left_first: 2, left_second: 1 });
/// assert_eq!(pairs[..paired.pairs], [[1, 2], [2, 1]]);
/// assert_eq!(left_cab[..paired.left_first], [3, 4]);
/// assert_eq!(left_crusher[..paired.left_second], [3]);
///
/// let falling = plain(&[(5, 1_000), (12, 700), (5, 999)])?;
/// let answer = pair_tapes(&cab, &falling, &mut pairs, &mut left_cab, &mut left_crusher);
/// assert_eq!(answer, Err(Refusal::TimesFall));
/// # Ok::<(), Refusal>(())
/// ```
///
/// # Errors
///
/// The first of these that applies, each tried on both tapes before the next:
///
/// - [`Refusal::Size`]: a tape's bytes are not 13n with n at most 5,000
/// - [`Refusal::Unpack`]: a ticket of one of the tapes does not unpack
/// - [`Refusal::TimesFall`]: a truck's tipped times fall on one of the tapes
/// - [`Refusal::Output`]: an output is shorter than what was found for it
pub fn pair_tapes(
    first: &[u8],
    second: &[u8],
    pairs: &mut [[u32; 2]],
    left_first: &mut [u32],
    left_second: &mut [u32],
) -> Result<Paired, Refusal> {
    let pairs = pairs.as_flattened_mut();
    exports::pair_tapes(first, second, pairs, left_first, left_second).into_result()
}

/// What [`pair_tapes_to_vecs`] answers: positions, counted from 1. Needs the feature `alloc`.
#[cfg(feature = "alloc")]
#[derive(Clone, PartialEq, Eq, Debug)]
pub struct Pairing {
    /// Of each pair the first tape's position and the second's, in the first tape's order.
    pub pairs: Vec<[u32; 2]>,
    /// The tickets left over on the first tape, in its order.
    pub left_first: Vec<u32>,
    /// The tickets left over on the second tape, in its order.
    pub left_second: Vec<u32>,
}

/// As [`pair_tapes`], into vectors of its own. Needs the feature `alloc`.
///
/// ```
/// use haul_tape::{pair_tapes_to_vecs, Refusal};
///
/// let packed = [0x10, 0x14, 0x20, 0xD0, 0x38, 0x40, 0x41, 0xA0, 0xF4, 0x24, 0x06, 0xB6, 0xC0];
/// let pairing = pair_tapes_to_vecs(&packed.repeat(3), &packed)?;
/// assert_eq!(pairing.pairs, [[1, 1]]);
/// assert_eq!(pairing.left_first, [2, 3]);
/// assert!(pairing.left_second.is_empty());
/// # Ok::<(), Refusal>(())
/// ```
///
/// # Errors
///
/// The first of these that applies, each tried on both tapes before the next:
///
/// - [`Refusal::Size`]: a tape's bytes are not 13n with n at most 5,000
/// - [`Refusal::Unpack`]: a ticket of one of the tapes does not unpack
/// - [`Refusal::TimesFall`]: a truck's tipped times fall on one of the tapes
#[cfg(feature = "alloc")]
pub fn pair_tapes_to_vecs(first: &[u8], second: &[u8]) -> Result<Pairing, Refusal> {
    let tickets = |plain: &[u8]| (plain.len() / TICKET_BYTES).min(MOST_TICKETS);
    let (n, m) = (tickets(first), tickets(second));
    let mut pairs = vec![[0; 2]; n.min(m)];
    let (mut left_first, mut left_second) = (vec![0; n], vec![0; m]);
    let paired = pair_tapes(first, second, &mut pairs, &mut left_first, &mut left_second)?;
    pairs.truncate(paired.pairs);
    left_first.truncate(paired.left_first);
    left_second.truncate(paired.left_second);
    Ok(Pairing {
        pairs,
        left_first,
        left_second,
    })
}
