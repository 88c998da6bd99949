use crate::{exports, Refusal};
use core::error::Error;
use core::fmt;

/// Two receptions part: neither is the beginning of the other. It is [`Refusal::Parted`], with its
/// place.
#[derive(Clone, Copy, PartialEq, Eq, Hash, Debug)]
pub struct Parted {
    /// The first byte in which they part, counted from 0.
    pub place: usize,
}

impl fmt::Display for Parted {
    fn fmt(&self, f: &mut fmt::Formatter<'_>) -> fmt::Result {
        let number = Refusal::Parted.number();
        write!(
            f,
            "two receptions part at byte {} (refusal {number})",
            self.place
        )
    }
}

impl Error for Parted {}

impl From<Parted> for Refusal {
    fn from(_: Parted) -> Refusal {
        Refusal::Parted
    }
}

/// Whether what two masts heard of one tape parts, and where.
///
/// The receptions may be any bytes, of any lengths. They do not part where one is the beginning of
/// the other, so not where they are equal, and not where one is empty. Of a tape heard wrongly by both
/// in the same way nothing is noticed here: [`open_tape`](crate::open_tape) looks at its tag.
///
/// ```
/// use haul_tape::{parting, Parted, Refusal};
///
/// let heard = [0, 0, 0, 7, 0, 0, 0x20, 0, 1];
/// assert_eq!(parting(&heard, &heard[..4]), Ok(()));
/// assert_eq!(parting(&[], &heard), Ok(()));
///
/// let other = [0, 0, 0, 7, 0, 0, 0x30];
/// let parted = parting(&heard, &other).unwrap_err();
/// assert_eq!(parted, Parted { place: 6 });
/// assert_eq!(parted.to_string(), "two receptions part at byte 6 (refusal 10)");
/// assert_eq!(Refusal::from(parted), Refusal::Parted);
/// ```
///
/// # Errors
///
/// [`Parted`], with the place: the receptions part.
pub fn parting(first: &[u8], second: &[u8]) -> Result<(), Parted> {
    exports::parting(first, second).into_result()
}

/// The longer of two receptions that do not part: the mast's own buffer, and no copy. The first
/// mast's where they are equal; its empty beginning where they part, which [`parting`] tells from two
/// empty ones.
///
/// What is handed back is for [`open_tape`](crate::open_tape): nothing is known of its tag.
///
/// ```
/// use haul_tape::{longer, open_tape, parting, Head, Refusal, Ticket, Writer};
///
/// let key = [1; 16];
/// let ticket = Ticket {
///     form: 1,
///     truck: 5,
///     shovel: 2,
///     tip: 3,
///     grade: 4,
///     loaded: 3_600,
///     tipped: 4_200,
///     gross: 250_000,
///     tare: 110_000,
/// };
/// let mut tape = [0; 25 + 13];
/// let mut writer = Writer::new();
/// writer.start(&key, Head { device: 7, shift: 2, sheet: 1 }, &mut tape)?;
/// writer.add(ticket, &mut tape[9..])?;
/// writer.finish(&mut tape[22..])?;
///
/// // The first mast lost the end; the second heard all of it.
/// let (first, second) = (&tape[..30], &tape[..]);
/// parting(first, second)?;
/// let heard = longer(first, second);
/// assert_eq!(heard, tape);
/// let opened = open_tape(&key, heard, &mut [0; 13])?;
/// assert_eq!((opened.tickets, opened.net), (1, 140_000));
///
/// // With a byte heard wrongly nothing is left to open.
/// let mut wrong = tape;
/// wrong[20] ^= 1;
/// assert_eq!(parting(&wrong, &tape).unwrap_err().place, 20);
/// assert!(longer(&wrong, &tape).is_empty());
/// # Ok::<(), Refusal>(())
/// ```
#[must_use]
pub fn longer<'a>(first: &'a [u8], second: &'a [u8]) -> &'a [u8] {
    let part = exports::longer(first, second);
    let heard = if part.mast == 2 { second } else { first };
    &heard[..part.bytes as usize]
}
