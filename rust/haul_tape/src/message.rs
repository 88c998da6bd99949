//! Whole messages.
//!
//! A message has a key and a nonce of 16 bytes each, data that is protected but not hidden, and
//! text; data and text have at most 65,536 bytes each. Sealed, it is the ciphertext of the text
//! and then a tag of 16 bytes; by the calls with `tag` in their name a tag of 8 to 16 bytes, which
//! are the last of the sixteen.
//!
//! ```
//! use haul_tape::{message, Refusal};
//!
//! let (key, nonce) = ([1; 16], [2; 16]);
//! let mut sealed = [0; 13 + 16];
//! message::seal(&key, &nonce, b"shift 2", b"face 4 closed", &mut sealed)?;
//! let mut text = [0; 13];
//! message::open(&key, &nonce, b"shift 2", &sealed, &mut text)?;
//! assert_eq!(&text, b"face 4 closed");
//!
//! sealed[3] ^= 1;
//! let answer = message::open(&key, &nonce, b"shift 2", &sealed, &mut text);
//! assert_eq!(answer, Err(Refusal::Tag));
//! # Ok::<(), Refusal>(())
//! ```

use crate::{exports, Refusal};
#[cfg(feature = "alloc")]
use crate::{MOST_BYTES, TAG_BYTES};
#[cfg(feature = "alloc")]
use alloc::{vec, vec::Vec};

/// Seals `text` and writes ciphertext and tag at the start of `out`; answers how many bytes they
/// are, the text's and 16.
///
/// Never use a key and nonce for a second message.
///
/// ```
/// use haul_tape::message;
///
/// let mut out = [0; 20];
/// assert_eq!(message::seal(&[0; 16], &[0; 16], &[], &[1], &mut out)?, 17);
/// assert_eq!(out[..3], [0x2B, 0x4B, 0x60]);
/// # Ok::<(), haul_tape::Refusal>(())
/// ```
///
/// # Errors
///
/// The first of these that applies:
///
/// - [`Refusal::Size`]: key or nonce is not 16 bytes
/// - [`Refusal::Limit`]: data or text has more than 65,536 bytes
/// - [`Refusal::Output`]: `out` is shorter than the text and 16 bytes
pub fn seal(
    key: &[u8],
    nonce: &[u8],
    data: &[u8],
    text: &[u8],
    out: &mut [u8],
) -> Result<usize, Refusal> {
    exports::seal(key, nonce, data, text, out).into_result()
}

/// As [`seal`], into a vector of its own. Needs the feature `alloc`.
///
/// ```
/// use haul_tape::message;
///
/// let sealed = message::seal_to_vec(&[1; 16], &[2; 16], b"shift 2", b"face 4 closed")?;
/// assert_eq!(sealed.len(), 13 + 16);
/// # Ok::<(), haul_tape::Refusal>(())
/// ```
///
/// # Errors
///
/// The first of these that applies:
///
/// - [`Refusal::Size`]: key or nonce is not 16 bytes
/// - [`Refusal::Limit`]: data or text has more than 65,536 bytes
#[cfg(feature = "alloc")]
pub fn seal_to_vec(key: &[u8], nonce: &[u8], data: &[u8], text: &[u8]) -> Result<Vec<u8>, Refusal> {
    let mut sealed = vec![0; text.len().min(MOST_BYTES) + TAG_BYTES];
    seal(key, nonce, data, text, &mut sealed)?;
    Ok(sealed)
}

/// Opens what [`seal`] wrote and, once the tag is known to match, writes the text at the start of
/// `out`; answers how many bytes it has.
///
/// Takes of the stack what the text needs: 3 KiB up to 2,048 bytes, at most 74 KiB.
///
/// # Errors
///
/// The first of these that applies:
///
/// - [`Refusal::Size`]: key or nonce is not 16 bytes, or `sealed` is under 16
/// - [`Refusal::Limit`]: data has more than 65,536 bytes, or `sealed` more than 65,552
/// - [`Refusal::Output`]: `out` is shorter than the text
/// - [`Refusal::Tag`]: the tag differs
pub fn open(
    key: &[u8],
    nonce: &[u8],
    data: &[u8],
    sealed: &[u8],
    out: &mut [u8],
) -> Result<usize, Refusal> {
    exports::open(key, nonce, data, sealed, out).into_result()
}

/// As [`open`], into a vector of its own. Needs the feature `alloc`.
///
/// ```
/// use haul_tape::message;
///
/// let sealed = message::seal_to_vec(&[1; 16], &[2; 16], b"shift 2", b"face 4 closed")?;
/// let text = message::open_to_vec(&[1; 16], &[2; 16], b"shift 2", &sealed)?;
/// assert_eq!(text, b"face 4 closed");
/// # Ok::<(), haul_tape::Refusal>(())
/// ```
///
/// # Errors
///
/// The first of these that applies:
///
/// - [`Refusal::Size`]: key or nonce is not 16 bytes, or `sealed` is under 16
/// - [`Refusal::Limit`]: data has more than 65,536 bytes, or `sealed` more than 65,552
/// - [`Refusal::Tag`]: the tag differs
#[cfg(feature = "alloc")]
pub fn open_to_vec(
    key: &[u8],
    nonce: &[u8],
    data: &[u8],
    sealed: &[u8],
) -> Result<Vec<u8>, Refusal> {
    let mut text = vec![0; sealed.len().saturating_sub(TAG_BYTES).min(MOST_BYTES)];
    open(key, nonce, data, sealed, &mut text)?;
    Ok(text)
}

/// As [`seal`], with a tag of `tag_length` bytes, 8 to 16, which are the last of the sixteen.
///
/// Whoever opens the message must know the length: the sealed bytes do not tell it. A shorter tag is
/// guessed more easily, and a key and nonce must not be used with two lengths: see
/// [Keys, nonces and tags](crate#keys-nonces-and-tags).
///
/// ```
/// use haul_tape::message;
///
/// let (key, nonce) = ([1; 16], [2; 16]);
/// let mut short = [0; 6 + 8];
/// message::seal_tag(&key, &nonce, b"shift 2", b"face 4", 8, &mut short)?;
///
/// // to compare; outside an example never with the same key and nonce
/// let mut long = [0; 6 + 16];
/// message::seal(&key, &nonce, b"shift 2", b"face 4", &mut long)?;
/// assert_eq!(short[..6], long[..6]);
/// assert_eq!(short[6..], long[6 + 8..]);
/// # Ok::<(), haul_tape::Refusal>(())
/// ```
///
/// # Errors
///
/// The first of these that applies:
///
/// - [`Refusal::TagLength`]: `tag_length` is not 8 to 16
/// - [`Refusal::Size`]: key or nonce is not 16 bytes
/// - [`Refusal::Limit`]: data or text has more than 65,536 bytes
/// - [`Refusal::Output`]: `out` is shorter than the text and the tag
pub fn seal_tag(
    key: &[u8],
    nonce: &[u8],
    data: &[u8],
    text: &[u8],
    tag_length: usize,
    out: &mut [u8],
) -> Result<usize, Refusal> {
    exports::seal_tag(key, nonce, data, text, tag_length, out).into_result()
}

/// As [`seal_tag`], into a vector of its own. Needs the feature `alloc`.
///
/// ```
/// use haul_tape::{message, Refusal};
///
/// let seal = |tag_length| {
///     message::seal_tag_to_vec(&[1; 16], &[2; 16], b"shift 2", b"face 4 closed", tag_length)
/// };
/// assert_eq!(seal(8)?.len(), 13 + 8);
/// assert_eq!(seal(7), Err(Refusal::TagLength));
/// # Ok::<(), Refusal>(())
/// ```
///
/// # Errors
///
/// The first of these that applies:
///
/// - [`Refusal::TagLength`]: `tag_length` is not 8 to 16
/// - [`Refusal::Size`]: key or nonce is not 16 bytes
/// - [`Refusal::Limit`]: data or text has more than 65,536 bytes
#[cfg(feature = "alloc")]
pub fn seal_tag_to_vec(
    key: &[u8],
    nonce: &[u8],
    data: &[u8],
    text: &[u8],
    tag_length: usize,
) -> Result<Vec<u8>, Refusal> {
    let mut sealed = vec![0; text.len().min(MOST_BYTES) + tag_length.min(TAG_BYTES)];
    seal_tag(key, nonce, data, text, tag_length, &mut sealed)?;
    Ok(sealed)
}

/// Opens what [`seal_tag`] wrote with a tag of this length, as [`open`] does what [`seal`] wrote.
///
/// ```
/// use haul_tape::{message, Refusal};
///
/// let (key, nonce) = ([1; 16], [2; 16]);
/// let mut sealed = [0; 6 + 8];
/// message::seal_tag(&key, &nonce, b"shift 2", b"face 4", 8, &mut sealed)?;
/// let mut text = [0; 6];
/// message::open_tag(&key, &nonce, b"shift 2", &sealed, 8, &mut text)?;
/// assert_eq!(&text, b"face 4");
///
/// let answer = message::open_tag(&key, &nonce, b"shift 2", &sealed, 9, &mut text);
/// assert_eq!(answer, Err(Refusal::Tag));
/// let answer = message::open_tag(&key, &nonce, b"shift 2", &sealed, 15, &mut text);
/// assert_eq!(answer, Err(Refusal::Size));
/// # Ok::<(), Refusal>(())
/// ```
///
/// # Errors
///
/// The first of these that applies:
///
/// - [`Refusal::TagLength`]: `tag_length` is not 8 to 16
/// - [`Refusal::Size`]: key or nonce is not 16 bytes, or `sealed` is shorter than the tag
/// - [`Refusal::Limit`]: data has more than 65,536 bytes, or `sealed` more than that and the tag
/// - [`Refusal::Output`]: `out` is shorter than the text
/// - [`Refusal::Tag`]: the tag differs
pub fn open_tag(
    key: &[u8],
    nonce: &[u8],
    data: &[u8],
    sealed: &[u8],
    tag_length: usize,
    out: &mut [u8],
) -> Result<usize, Refusal> {
    exports::open_tag(key, nonce, data, sealed, tag_length, out).into_result()
}

/// As [`open_tag`], into a vector of its own. Needs the feature `alloc`.
///
/// ```
/// use haul_tape::message;
///
/// let sealed = message::seal_tag_to_vec(&[1; 16], &[2; 16], b"shift 2", b"face 4", 12)?;
/// let text = message::open_tag_to_vec(&[1; 16], &[2; 16], b"shift 2", &sealed, 12)?;
/// assert_eq!(text, b"face 4");
/// # Ok::<(), haul_tape::Refusal>(())
/// ```
///
/// # Errors
///
/// The first of these that applies:
///
/// - [`Refusal::TagLength`]: `tag_length` is not 8 to 16
/// - [`Refusal::Size`]: key or nonce is not 16 bytes, or `sealed` is shorter than the tag
/// - [`Refusal::Limit`]: data has more than 65,536 bytes, or `sealed` more than that and the tag
/// - [`Refusal::Tag`]: the tag differs
#[cfg(feature = "alloc")]
pub fn open_tag_to_vec(
    key: &[u8],
    nonce: &[u8],
    data: &[u8],
    sealed: &[u8],
    tag_length: usize,
) -> Result<Vec<u8>, Refusal> {
    let mut text = vec![0; sealed.len().saturating_sub(tag_length).min(MOST_BYTES)];
    open_tag(key, nonce, data, sealed, tag_length, &mut text)?;
    Ok(text)
}
