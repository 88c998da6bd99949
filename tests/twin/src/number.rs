//! The refusal numbers and the limits that go with them (document 01, "What sends a call back";
//! 9 to 14 are from document 02, P4 to P9).
//!
//! The smallest number that applies is answered, but 9 comes right after 1: before 2; where tapes are
//! paired 6 comes after 12; and 13 and 14 come first.

/// The phase, or the kind of machine, does not allow the call.
pub const PHASE: u8 = 1;
/// A length that must be exact is not: key, nonce, tag, sealed bytes, tape, a reader's bytes, an
/// opened tape.
pub const LENGTH: u8 = 2;
/// A head field is outside its range.
pub const HEAD: u8 = 3;
/// A ticket to be written breaks a rule.
pub const TICKET: u8 = 4;
/// Too much data, too much text, or too many tickets.
pub const LIMIT: u8 = 5;
/// The output is shorter than what is to be written.
pub const OUTPUT: u8 = 6;
/// The tag differs.
pub const TAG: u8 = 7;
/// A ticket does not unpack.
pub const UNPACK: u8 = 8;
/// A tag length to be fixed is outside 8 to 16 bytes.
pub const TAG_LENGTH: u8 = 9;
/// The receptions part; the place goes with it.
pub const RECEPTIONS: u8 = 10;
/// A ticket to be moved to form 1 is tipped too late for it.
pub const TOO_LATE: u8 = 11;
/// A truck's tipped times fall.
pub const TIMES_FALL: u8 = 12;
/// A rate is too high.
pub const RATE: u8 = 13;
/// There is no cutting: no pieces, more of them than bytes, or too many bytes.
pub const NO_CUTTING: u8 = 14;

/// The most bytes of data, and the most bytes of text, that one message may have.
pub const MAX_BYTES: usize = 65_536;
/// The fewest bytes that a tag may have.
pub const MIN_TAG_BYTES: usize = 8;
/// The most bytes that a tag may have: all 128 bits. What names no length means these.
pub const MAX_TAG_BYTES: usize = 16;
/// The most tickets that one tape may have.
pub const MAX_TICKETS: usize = 5_000;

/// Number 9: the length that a call is to fix for a tag.
pub(crate) fn allow_tag_bytes(tag_bytes: usize) -> Result<(), u8> {
    if (MIN_TAG_BYTES..=MAX_TAG_BYTES).contains(&tag_bytes) {
        Ok(())
    } else {
        Err(TAG_LENGTH)
    }
}
