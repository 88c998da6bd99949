use core::error::Error;
use core::fmt;

/// Why a call was sent back.
///
/// Where several apply, the one with the smallest number is given; but [`Refusal::TagLength`], 9,
/// comes right after [`Refusal::Phase`], 1, and in [`pair_tapes`](crate::pair_tapes)
/// [`Refusal::Output`], 6, comes after [`Refusal::TimesFall`], 12. A refused call changes nothing,
/// neither session nor writer nor output; but [`Refusal::Tag`] closes a [`Checking`] session.
///
/// Later papers may add numbers, so a `match` needs an arm for the others.
///
/// ```
/// use haul_tape::{Refusal, Ticket};
///
/// let refusal = Ticket::unpack(&[0; 12]).unwrap_err();
/// assert_eq!(refusal, Refusal::Size);
/// assert_eq!(refusal.number(), 2);
/// assert_eq!(refusal.to_string(), "a key, nonce, tag, message, tape, ticket or head has a wrong size (refusal 2)");
/// ```
///
/// [`Checking`]: crate::Checking
#[derive(Clone, Copy, PartialEq, Eq, Hash, Debug)]
#[non_exhaustive]
#[repr(u8)]
pub enum Refusal {
    /// 1: the call does not fit the phase, or is meant for the other kind of session.
    Phase = 1,
    /// 2: a key or nonce that is not 16 bytes; a tag of another length than the one fixed; sealed
    /// bytes shorter than the tag; a tape that is not 25 + 13n bytes, or tickets' bytes that are
    /// not 13n, with n at most 5,000; a packed ticket that is not 13 bytes, a packed head that is
    /// not 9.
    Size = 2,
    /// 3: a head field outside its range.
    Head = 3,
    /// 4: a ticket to be written or moved breaks a rule; a form asked for that is neither 1 nor 2.
    Ticket = 4,
    /// 5: more than 65,536 bytes of data, or of text; a 5,001st ticket.
    Limit = 5,
    /// 6: the output is too short, or one of several is.
    Output = 6,
    /// 7: the tag differs.
    Tag = 7,
    /// 8: a ticket does not unpack.
    Unpack = 8,
    /// 9: the length asked for a tag is not 8 to 16 bytes.
    TagLength = 9,
    /// 10: two receptions part. [`Parted`](crate::Parted) has the place, too.
    Parted = 10,
    /// 11: a ticket of form 2 that is tipped after second 43,199 is asked for in form 1.
    TooLate = 11,
    /// 12: a truck's tipped times on a tape to be paired fall.
    TimesFall = 12,
}

impl Refusal {
    /// The refusal's number.
    #[must_use]
    pub const fn number(self) -> u8 {
        self as u8
    }

    /// The refusal with this number, which an answer of [`exports`](crate::exports) has in its
    /// field `refused`, and a listing behind `REFUSED`; `None` for 0 and for numbers that there are
    /// not.
    ///
    /// ```
    /// use haul_tape::Refusal;
    ///
    /// assert_eq!(Refusal::from_number(7), Some(Refusal::Tag));
    /// assert_eq!(Refusal::from_number(0), None);
    /// ```
    #[must_use]
    pub const fn from_number(number: u32) -> Option<Refusal> {
        Some(match number {
            1 => Refusal::Phase,
            2 => Refusal::Size,
            3 => Refusal::Head,
            4 => Refusal::Ticket,
            5 => Refusal::Limit,
            6 => Refusal::Output,
            7 => Refusal::Tag,
            8 => Refusal::Unpack,
            9 => Refusal::TagLength,
            10 => Refusal::Parted,
            11 => Refusal::TooLate,
            12 => Refusal::TimesFall,
            _ => return None,
        })
    }
}

impl fmt::Display for Refusal {
    fn fmt(&self, f: &mut fmt::Formatter<'_>) -> fmt::Result {
        let reason = match self {
            Refusal::Phase => "the call does not fit the phase",
            Refusal::Size => "a key, nonce, tag, message, tape, ticket or head has a wrong size",
            Refusal::Head => "a head field is outside its range",
            Refusal::Ticket => {
                "a ticket to be written or moved breaks a rule, or there is no such form"
            }
            Refusal::Limit => "there is too much data or text, or a ticket too many",
            Refusal::Output => "the output is too short",
            Refusal::Tag => "the tag differs",
            Refusal::Unpack => "a ticket does not unpack",
            Refusal::TagLength => "the length asked for a tag is not 8 to 16 bytes",
            Refusal::Parted => "two receptions part",
            Refusal::TooLate => "a ticket is tipped too late for form 1",
            Refusal::TimesFall => "a truck's tipped times fall",
        };
        write!(f, "{reason} (refusal {})", self.number())
    }
}

impl Error for Refusal {}
