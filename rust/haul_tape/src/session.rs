use crate::{exports, Refusal};
use core::fmt;

/// What an accepted call on a session or writer did.
#[derive(Clone, Copy, PartialEq, Eq, Debug)]
pub struct Done {
    /// The bytes that this call wrote, at the start of its output.
    pub bytes: usize,
    /// The steps of the cipher run since the session or writer was fresh.
    pub steps: u64,
}

/// Seals a message in pieces: [`begin`], or [`begin_tag`] for a shorter tag, [`data`] any number of
/// times, [`text`] any number of times, [`close`].
///
/// Wherever the pieces are cut, the bytes written are those of [`message::seal`], or after
/// [`begin_tag`] of [`message::seal_tag`]. What the session holds is as secret as its key, and is
/// cleared by a close or a drop: see [Secrets](crate#secrets).
///
/// ```
/// use haul_tape::{message, Sealing};
///
/// let (key, nonce) = ([1; 16], [2; 16]);
/// let mut sealed = [0; 6 + 16];
/// let mut session = Sealing::new();
/// session.begin(&key, &nonce)?;
/// session.data(b"shift ")?;
/// session.data(b"2")?;
/// session.text(b"face", &mut sealed)?;
/// session.text(b" 4", &mut sealed[4..])?;
/// let done = session.close(&mut sealed[6..])?;
/// assert_eq!((done.bytes, done.steps), (16, 3_072 + 8 * (7 + 6)));
///
/// let mut whole = [0; 6 + 16];
/// message::seal(&key, &nonce, b"shift 2", b"face 4", &mut whole)?;
/// assert_eq!(sealed, whole);
/// # Ok::<(), haul_tape::Refusal>(())
/// ```
///
/// [`begin`]: Sealing::begin
/// [`begin_tag`]: Sealing::begin_tag
/// [`data`]: Sealing::data
/// [`text`]: Sealing::text
/// [`close`]: Sealing::close
/// [`message::seal`]: crate::message::seal
/// [`message::seal_tag`]: crate::message::seal_tag
pub struct Sealing(exports::Session);

impl Sealing {
    /// A fresh session.
    #[must_use]
    pub fn new() -> Sealing {
        Sealing(exports::Session::fresh_sealing())
    }

    /// Takes key and nonce, 16 bytes each; the tag will have 16. They must serve one message only.
    ///
    /// # Errors
    ///
    /// The first of these that applies:
    ///
    /// - [`Refusal::Phase`]: the session is not fresh
    /// - [`Refusal::Size`]: key or nonce is not 16 bytes
    pub fn begin(&mut self, key: &[u8], nonce: &[u8]) -> Result<Done, Refusal> {
        self.0.begin(key, nonce).into_result()
    }

    /// As [`begin`](Sealing::begin), and the tag will have `tag_length` bytes, 8 to 16, which are the
    /// last of the sixteen. A key and nonce must not be used with two lengths: see
    /// [Keys, nonces and tags](crate#keys-nonces-and-tags).
    ///
    /// ```
    /// use haul_tape::{message, Sealing};
    ///
    /// let (key, nonce) = ([1; 16], [2; 16]);
    /// let mut sealed = [0; 6 + 8];
    /// let mut session = Sealing::new();
    /// session.begin_tag(&key, &nonce, 8)?;
    /// session.text(b"face 4", &mut sealed)?;
    /// assert_eq!(session.close(&mut sealed[6..])?.bytes, 8);
    ///
    /// let mut text = [0; 6];
    /// message::open_tag(&key, &nonce, &[], &sealed, 8, &mut text)?;
    /// assert_eq!(&text, b"face 4");
    /// # Ok::<(), haul_tape::Refusal>(())
    /// ```
    ///
    /// # Errors
    ///
    /// The first of these that applies:
    ///
    /// - [`Refusal::Phase`]: the session is not fresh
    /// - [`Refusal::TagLength`]: `tag_length` is not 8 to 16
    /// - [`Refusal::Size`]: key or nonce is not 16 bytes
    pub fn begin_tag(
        &mut self,
        key: &[u8],
        nonce: &[u8],
        tag_length: usize,
    ) -> Result<Done, Refusal> {
        self.0.begin_tag(key, nonce, tag_length).into_result()
    }

    /// Takes a piece of data.
    ///
    /// # Errors
    ///
    /// The first of these that applies:
    ///
    /// - [`Refusal::Phase`]: before `begin`, after the first `text`, or after a close
    /// - [`Refusal::Limit`]: the message would have more than 65,536 bytes of data
    pub fn data(&mut self, piece: &[u8]) -> Result<Done, Refusal> {
        self.0.data(piece).into_result()
    }

    /// Takes a piece of text and writes its ciphertext. Ends the data, even with an empty piece.
    ///
    /// # Errors
    ///
    /// The first of these that applies:
    ///
    /// - [`Refusal::Phase`]: before `begin`, or after a close
    /// - [`Refusal::Limit`]: the message would have more than 65,536 bytes of text
    /// - [`Refusal::Output`]: `out` is shorter than the piece
    pub fn text(&mut self, piece: &[u8], out: &mut [u8]) -> Result<Done, Refusal> {
        self.0.seal_text(piece, out).into_result()
    }

    /// Ends the message and writes its tag: 16 bytes, or as many as `begin_tag` was given.
    ///
    /// # Errors
    ///
    /// The first of these that applies:
    ///
    /// - [`Refusal::Phase`]: before `begin`, or after a close
    /// - [`Refusal::Output`]: `out` is shorter than the tag
    pub fn close(&mut self, out: &mut [u8]) -> Result<Done, Refusal> {
        self.0.seal_close(out).into_result()
    }
}

/// Checks the tag of a message in pieces, and gives no text: [`begin`], or [`begin_tag`] for a
/// shorter tag, [`data`] any number of times, [`text`] with ciphertext any number of times,
/// [`close`] with the tag.
///
/// What the session holds is as secret as its key, and is cleared by a close or a drop: see
/// [Secrets](crate#secrets).
///
/// ```
/// use haul_tape::{message, Checking, Refusal};
///
/// let (key, nonce) = ([1; 16], [2; 16]);
/// let mut sealed = [0; 6 + 16];
/// message::seal(&key, &nonce, b"shift 2", b"face 4", &mut sealed)?;
/// let check = |tag: &[u8]| {
///     let mut session = Checking::new();
///     session.begin(&key, &nonce)?;
///     session.data(b"shift 2")?;
///     session.text(&sealed[..6])?;
///     session.close(tag)
/// };
/// assert!(check(&sealed[6..]).is_ok());
/// assert_eq!(check(&[0; 16]), Err(Refusal::Tag));
/// # Ok::<(), Refusal>(())
/// ```
///
/// [`begin`]: Checking::begin
/// [`begin_tag`]: Checking::begin_tag
/// [`data`]: Checking::data
/// [`text`]: Checking::text
/// [`close`]: Checking::close
pub struct Checking(exports::Session);

impl Checking {
    /// A fresh session.
    #[must_use]
    pub fn new() -> Checking {
        Checking(exports::Session::fresh_checking())
    }

    /// Takes key and nonce, 16 bytes each; the tag must have 16.
    ///
    /// # Errors
    ///
    /// The first of these that applies:
    ///
    /// - [`Refusal::Phase`]: the session is not fresh
    /// - [`Refusal::Size`]: key or nonce is not 16 bytes
    pub fn begin(&mut self, key: &[u8], nonce: &[u8]) -> Result<Done, Refusal> {
        self.0.begin(key, nonce).into_result()
    }

    /// As [`begin`](Checking::begin), and the tag must have `tag_length` bytes, 8 to 16.
    ///
    /// ```
    /// use haul_tape::{message, Checking, Refusal};
    ///
    /// let (key, nonce) = ([1; 16], [2; 16]);
    /// let mut sealed = [0; 6 + 8];
    /// message::seal_tag(&key, &nonce, &[], b"face 4", 8, &mut sealed)?;
    /// let mut session = Checking::new();
    /// session.begin_tag(&key, &nonce, 8)?;
    /// session.text(&sealed[..6])?;
    /// assert_eq!(session.close(&[0; 16]), Err(Refusal::Size));
    /// assert!(session.close(&sealed[6..]).is_ok());
    /// # Ok::<(), Refusal>(())
    /// ```
    ///
    /// # Errors
    ///
    /// The first of these that applies:
    ///
    /// - [`Refusal::Phase`]: the session is not fresh
    /// - [`Refusal::TagLength`]: `tag_length` is not 8 to 16
    /// - [`Refusal::Size`]: key or nonce is not 16 bytes
    pub fn begin_tag(
        &mut self,
        key: &[u8],
        nonce: &[u8],
        tag_length: usize,
    ) -> Result<Done, Refusal> {
        self.0.begin_tag(key, nonce, tag_length).into_result()
    }

    /// Takes a piece of data.
    ///
    /// # Errors
    ///
    /// The first of these that applies:
    ///
    /// - [`Refusal::Phase`]: before `begin`, after the first `text`, or after a close
    /// - [`Refusal::Limit`]: the message would have more than 65,536 bytes of data
    pub fn data(&mut self, piece: &[u8]) -> Result<Done, Refusal> {
        self.0.data(piece).into_result()
    }

    /// Takes a piece of ciphertext. Ends the data, even with an empty piece.
    ///
    /// # Errors
    ///
    /// The first of these that applies:
    ///
    /// - [`Refusal::Phase`]: before `begin`, or after a close
    /// - [`Refusal::Limit`]: the message would have more than 65,536 bytes of text
    pub fn text(&mut self, piece: &[u8]) -> Result<Done, Refusal> {
        self.0.check_text(piece).into_result()
    }

    /// Ends the message and compares its tag with the given one. A wrong tag closes the session,
    /// too.
    ///
    /// # Errors
    ///
    /// The first of these that applies:
    ///
    /// - [`Refusal::Phase`]: before `begin`, or after a close
    /// - [`Refusal::Size`]: the tag is not 16 bytes, or not as many as `begin_tag` was given
    /// - [`Refusal::Tag`]: the tag differs
    pub fn close(&mut self, tag: &[u8]) -> Result<Done, Refusal> {
        self.0.check_close(tag).into_result()
    }
}

impl Default for Sealing {
    fn default() -> Sealing {
        Sealing::new()
    }
}

impl Default for Checking {
    fn default() -> Checking {
        Checking::new()
    }
}

// What a session holds is secret, so it is not shown.

impl fmt::Debug for Sealing {
    fn fmt(&self, f: &mut fmt::Formatter<'_>) -> fmt::Result {
        f.debug_struct("Sealing").finish_non_exhaustive()
    }
}

impl fmt::Debug for Checking {
    fn fmt(&self, f: &mut fmt::Formatter<'_>) -> fmt::Result {
        f.debug_struct("Checking").finish_non_exhaustive()
    }
}
