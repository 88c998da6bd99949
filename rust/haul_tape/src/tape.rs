use crate::{exports, Done, Head, Refusal, Ticket, TICKET_BYTES};
#[cfg(feature = "alloc")]
use alloc::{string::String, vec};
use core::fmt;
use core::iter::FusedIterator;

/// Writes a tape: [`start`] with its head, [`add`] for each ticket, [`finish`].
///
/// Each call writes its part of the tape at the start of its output: 9 bytes, 13 bytes, 16 bytes.
/// A tape that is given up after `start` has used up its head.
///
/// What the writer holds is as secret as its key, and is cleared by a finish or a drop: see
/// [Secrets](crate#secrets).
///
/// ```
/// use haul_tape::{listing, Head, Ticket, Writer};
///
/// let key = [1; 16];
/// let head = Head { device: 7, shift: 2, sheet: 1 };
/// let tickets = [Ticket {
///     form: 1,
///     truck: 5,
///     shovel: 2,
///     tip: 3,
///     grade: 4,
///     loaded: 3_600,
///     tipped: 4_200,
///     gross: 250_000,
///     tare: 110_000,
/// }];
/// let mut tape = [0; 25 + 13];
/// let mut writer = Writer::new();
/// let mut at = writer.start(&key, head, &mut tape)?.bytes;
/// for ticket in tickets {
///     at += writer.add(ticket, &mut tape[at..])?.bytes;
/// }
/// writer.finish(&mut tape[at..])?;
///
/// let mut text = [0; 100];
/// let bytes = listing(&key, &tape, &mut text)?;
/// let expected = b"TAPE 7 2 1\n1 5 2 3 4 3600 4200 140000\nTOTAL 1 140000\n";
/// assert_eq!(&text[..bytes], expected);
/// # Ok::<(), haul_tape::Refusal>(())
/// ```
///
/// [`start`]: Writer::start
/// [`add`]: Writer::add
/// [`finish`]: Writer::finish
pub struct Writer(exports::Writer);

impl Writer {
    /// A fresh writer.
    #[must_use]
    pub fn new() -> Writer {
        Writer(exports::Writer::fresh())
    }

    /// Writes the head. A key, of 16 bytes, and head must serve one tape only.
    ///
    /// # Errors
    ///
    /// The first of these that applies:
    ///
    /// - [`Refusal::Phase`]: the writer is not fresh
    /// - [`Refusal::Size`]: the key is not 16 bytes
    /// - [`Refusal::Head`]: a field of the head is outside its range
    /// - [`Refusal::Output`]: `out` is shorter than 9 bytes
    pub fn start(&mut self, key: &[u8], head: Head, out: &mut [u8]) -> Result<Done, Refusal> {
        self.0.start(key, head, out).into_result()
    }

    /// Writes the ciphertext of the packed ticket; there may be 5,000.
    ///
    /// # Errors
    ///
    /// The first of these that applies:
    ///
    /// - [`Refusal::Phase`]: before `start`, or after `finish`
    /// - [`Refusal::Ticket`]: the ticket breaks a rule
    /// - [`Refusal::Limit`]: the tape has 5,000 tickets
    /// - [`Refusal::Output`]: `out` is shorter than 13 bytes
    pub fn add(&mut self, ticket: Ticket, out: &mut [u8]) -> Result<Done, Refusal> {
        self.0.add(ticket, out).into_result()
    }

    /// Writes the tag, and ends the tape.
    ///
    /// # Errors
    ///
    /// The first of these that applies:
    ///
    /// - [`Refusal::Phase`]: before `start`, or after `finish`
    /// - [`Refusal::Output`]: `out` is shorter than 16 bytes
    pub fn finish(&mut self, out: &mut [u8]) -> Result<Done, Refusal> {
        self.0.finish(out).into_result()
    }
}

impl Default for Writer {
    fn default() -> Writer {
        Writer::new()
    }
}

/// Shows nothing of what the writer holds, since that is secret.
impl fmt::Debug for Writer {
    fn fmt(&self, f: &mut fmt::Formatter<'_>) -> fmt::Result {
        f.debug_struct("Writer").finish_non_exhaustive()
    }
}

/// What an opened tape holds.
#[derive(Clone, Copy, PartialEq, Eq, Debug)]
pub struct Opened {
    /// The number of tickets.
    pub tickets: usize,
    /// Gross minus tare, over all tickets, in kilograms.
    pub net: u64,
}

impl Opened {
    /// The plain bytes at the start of the output: 13 for each ticket.
    #[must_use]
    pub const fn bytes(&self) -> usize {
        TICKET_BYTES * self.tickets
    }
}

/// Opens a tape: writes 13 plain bytes for each ticket at the start of `out`, once the tag is known
/// to match and every ticket has unpacked.
///
/// An output as long as the tape is always long enough. Takes of the stack what the tape needs:
/// 4 KiB up to 157 tickets, at most 66 KiB.
///
/// ```
/// use haul_tape::{open_tape, Head, Opened, Refusal, Writer};
///
/// let mut tape = [0; 25];
/// let mut writer = Writer::new();
/// writer.start(&[1; 16], Head { device: 7, shift: 2, sheet: 1 }, &mut tape)?;
/// writer.finish(&mut tape[9..])?;
///
/// let mut plain = [0; 25];
/// let opened = open_tape(&[1; 16], &tape, &mut plain)?;
/// assert_eq!(opened, Opened { tickets: 0, net: 0 });
/// assert_eq!(opened.bytes(), 0);
/// assert_eq!(open_tape(&[2; 16], &tape, &mut plain), Err(Refusal::Tag));
/// assert_eq!(open_tape(&[1; 16], &tape[1..], &mut plain), Err(Refusal::Size));
/// # Ok::<(), Refusal>(())
/// ```
///
/// # Errors
///
/// The first of these that applies:
///
/// - [`Refusal::Size`]: the key is not 16 bytes, or the tape is not 25 + 13n with n at most 5,000
/// - [`Refusal::Head`]: a field of the tape's head is outside its range
/// - [`Refusal::Output`]: `out` is shorter than 13 bytes for each ticket
/// - [`Refusal::Tag`]: the tag differs: another key, or a damaged tape
/// - [`Refusal::Unpack`]: the tag matches, but some 13 bytes are those of no ticket
pub fn open_tape(key: &[u8], tape: &[u8], out: &mut [u8]) -> Result<Opened, Refusal> {
    exports::open_tape(key, tape, out).into_result()
}

/// Hands out the tickets of opened bytes in turn.
///
/// It may be made over any bytes. A refusal, [`Refusal::Size`] or [`Refusal::Unpack`], is the last
/// item.
///
/// ```
/// use haul_tape::{Reader, Refusal, Ticket};
///
/// let packed = [0x10, 0x14, 0x20, 0xD0, 0x38, 0x40, 0x41, 0xA0, 0xF4, 0x24, 0x06, 0xB6, 0xC0];
/// let tickets: Vec<Ticket> = Reader::new(&packed.repeat(2)).collect::<Result<_, _>>()?;
/// assert_eq!(tickets.len(), 2);
/// assert_eq!(tickets[1].truck, 5);
///
/// let mut reader = Reader::new(&[0; 13]);
/// assert_eq!(reader.next(), Some(Err(Refusal::Unpack)));
/// assert_eq!(reader.next(), None);
/// # Ok::<(), Refusal>(())
/// ```
#[derive(Clone)]
#[must_use = "a reader reads only when it is asked for a ticket"]
pub struct Reader<'a> {
    plain: &'a [u8],
    position: u64,
    refused: bool,
}

impl<'a> Reader<'a> {
    /// A reader before the first ticket.
    pub fn new(plain: &'a [u8]) -> Reader<'a> {
        Reader {
            plain,
            position: 0,
            refused: false,
        }
    }

    /// How many tickets were handed out.
    #[must_use]
    pub fn position(&self) -> usize {
        self.position as usize
    }
}

impl Iterator for Reader<'_> {
    type Item = Result<Ticket, Refusal>;

    fn next(&mut self) -> Option<Result<Ticket, Refusal>> {
        if self.refused {
            return None;
        }
        let reading = exports::read_ticket(self.plain, self.position);
        if let Err(refusal) = Refusal::check(reading.refused) {
            self.refused = true;
            return Some(Err(refusal));
        }
        self.position = reading.position;
        (reading.at_end == 0).then_some(Ok(reading.ticket))
    }
}

impl FusedIterator for Reader<'_> {}

/// Shows the position, and not the tickets.
impl fmt::Debug for Reader<'_> {
    fn fmt(&self, f: &mut fmt::Formatter<'_>) -> fmt::Result {
        f.debug_struct("Reader")
            .field("position", &self.position)
            .finish_non_exhaustive()
    }
}

/// Writes the listing of a tape at the start of `out`, as ASCII text; answers how many bytes it
/// has.
///
/// It has a line with device, shift and sheet; a line for each ticket with its position, truck,
/// shovel, tip point, grade, loaded, tipped and net; and a line with tickets and total net. Of a
/// tape that does not open it is `REFUSED` and the number, and the call is done.
/// [`MOST_LISTING_BYTES`](crate::MOST_LISTING_BYTES) are always enough. Takes 65 KiB of the stack.
///
/// # Errors
///
/// [`Refusal::Output`]: `out` is shorter than the text.
pub fn listing(key: &[u8], tape: &[u8], out: &mut [u8]) -> Result<usize, Refusal> {
    exports::list_tape(key, tape, out).into_result()
}

/// As [`listing`], into a string of its own, which has room for every listing at first, 190,054 bytes. Needs the feature `alloc`.
///
/// ```
/// assert_eq!(haul_tape::listing_to_string(&[1; 16], b"no tape"), "REFUSED 2\n");
/// ```
#[cfg(feature = "alloc")]
#[must_use]
#[expect(
    clippy::missing_panics_doc,
    reason = "the library keeps what is expected"
)]
pub fn listing_to_string(key: &[u8], tape: &[u8]) -> String {
    let mut text = vec![0; crate::MOST_LISTING_BYTES];
    let bytes = listing(key, tape, &mut text).expect("the longest listing fits");
    text.truncate(bytes);
    text.shrink_to_fit();
    String::from_utf8(text).expect("a listing is ASCII")
}
