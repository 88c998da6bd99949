//! The exports of the C header one by one, with slices in place of pointers and lengths.
//!
//! Answers are as in C: `refused` is 0 where the call was done, else the number that sent it back
//! (see [`Refusal`](crate::Refusal)); [`longer`] alone is never refused. The numbers beside a call
//! are those with which it may be refused, in the order in which they are tried; the first that
//! applies is given.
//! Most programs want the types at the root of the crate instead; these calls are there for tests,
//! and for whoever needs a session whose kind is known only when the program runs.
//!
//! All `unsafe` of this crate is in this module. Why its calls are sound: each pointer comes from
//! a reference or a slice, so it is not null and is valid for the length beside it; an output is
//! borrowed mutably, so it overlaps nothing else, and inputs, which may overlap one another, are
//! only read; and the library writes only its outputs and the session or writer, and keeps no
//! pointer. Any words are some session or writer, so none can be broken.

use crate::{Head, Ticket};
use core::ptr;
use core::sync::atomic::{compiler_fence, Ordering};

/// The answer of a call that writes.
#[repr(C)]
#[derive(Clone, Copy, PartialEq, Eq, Debug)]
#[must_use = "the call may have been refused"]
pub struct Written {
    /// 0, or the number that sent the call back.
    pub refused: u32,
    /// Bytes at the start of the output; nothing behind them changes.
    pub bytes: u64,
}

/// The answer of a call on a session or writer.
#[repr(C)]
#[derive(Clone, Copy, PartialEq, Eq, Debug)]
#[must_use = "the call may have been refused"]
pub struct Answer {
    /// 0, or the number that sent the call back.
    pub refused: u32,
    /// Bytes that this call wrote.
    pub bytes: u64,
    /// Steps run since the session or writer was fresh.
    pub steps: u64,
}

/// The answer of opening a tape.
#[repr(C)]
#[derive(Clone, Copy, PartialEq, Eq, Debug)]
#[must_use = "the call may have been refused"]
pub struct Opened {
    /// 0, or the number that sent the call back.
    pub refused: u32,
    /// The number of tickets.
    pub tickets: u64,
    /// Total net in kilograms.
    pub net: u64,
}

/// The answer of unpacking or moving a ticket; zeros in place of the ticket where refused.
#[repr(C)]
#[derive(Clone, Copy, PartialEq, Eq, Debug)]
#[must_use = "the call may have been refused"]
pub struct UnpackedTicket {
    /// 0, or the number that sent the call back.
    pub refused: u32,
    /// The ticket.
    pub ticket: Ticket,
}

/// The answer of unpacking a head; zeros in place of the head where refused.
#[repr(C)]
#[derive(Clone, Copy, PartialEq, Eq, Debug)]
#[must_use = "the call may have been refused"]
pub struct UnpackedHead {
    /// 0, or the number that sent the call back.
    pub refused: u32,
    /// The head.
    pub head: Head,
}

/// The answer of reading at a position.
#[repr(C)]
#[derive(Clone, Copy, PartialEq, Eq, Debug)]
#[must_use = "the call may have been refused"]
pub struct Reading {
    /// 0, or the number that sent the call back.
    pub refused: u32,
    /// 1 at the end, where there is no ticket; else 0.
    pub at_end: u32,
    /// Where the next call goes on.
    pub position: u64,
    /// The ticket at the position asked for; zeros where there is none.
    pub ticket: Ticket,
}

/// The answer of counting the trucks on a tape.
#[repr(C)]
#[derive(Clone, Copy, PartialEq, Eq, Debug)]
#[must_use = "the call may have been refused"]
pub struct TruckCount {
    /// 0, or the number that sent the call back.
    pub refused: u32,
    /// How many different trucks are on the tape.
    pub trucks: u32,
}

/// The answer of comparing the trucks on two tapes.
#[repr(C)]
#[derive(Clone, Copy, PartialEq, Eq, Debug)]
#[must_use = "the call may have been refused"]
pub struct TruckCounts {
    /// 0, or the number that sent the call back.
    pub refused: u32,
    /// How many trucks are on both tapes.
    pub both: u32,
    /// How many trucks are on one tape or both.
    pub either: u32,
    /// How many trucks are on one tape and not on the other.
    pub just_one: u32,
}

/// The answer of where two receptions part.
#[repr(C)]
#[derive(Clone, Copy, PartialEq, Eq, Debug)]
#[must_use = "the receptions may part"]
pub struct Parted {
    /// 10 where they part, else 0.
    pub refused: u32,
    /// The first byte in which they part, counted from 0; 0 where they do not.
    pub place: u64,
}

/// The first bytes of what one of two masts heard.
#[repr(C)]
#[derive(Clone, Copy, PartialEq, Eq, Debug)]
#[must_use = "this is the part to be opened"]
pub struct Reception {
    /// 1 or 2.
    pub mast: u32,
    /// How many bytes.
    pub bytes: u64,
}

/// The answer of pairing the tickets of two tapes.
#[repr(C)]
#[derive(Clone, Copy, PartialEq, Eq, Debug)]
#[must_use = "the call may have been refused"]
pub struct Paired {
    /// 0, or the number that sent the call back.
    pub refused: u32,
    /// How many pairs.
    pub pairs: u64,
    /// How many tickets are left over on the first tape.
    pub left_first: u64,
    /// How many tickets are left over on the second tape.
    pub left_second: u64,
}

/// A session of either kind. A drop puts zeros in place of its words.
#[repr(C)]
pub struct Session {
    words: [u64; 11],
}

/// A tape's writer. A drop puts zeros in place of its words.
#[repr(C)]
pub struct Writer {
    words: [u64; 12],
}

#[rustfmt::skip] // one line each, as in the header
extern "C" {
    fn ht_seal(key: *const u8, keylen: usize, nonce: *const u8, noncelen: usize, data: *const u8, datalen: usize,
        text: *const u8, textlen: usize, out: *mut u8, outlen: usize) -> Written;
    fn ht_open(key: *const u8, keylen: usize, nonce: *const u8, noncelen: usize, data: *const u8, datalen: usize,
        sealed: *const u8, sealedlen: usize, out: *mut u8, outlen: usize) -> Written;
    fn ht_seal_tag(key: *const u8, keylen: usize, nonce: *const u8, noncelen: usize, data: *const u8, datalen: usize,
        text: *const u8, textlen: usize, taglen: usize, out: *mut u8, outlen: usize) -> Written;
    fn ht_open_tag(key: *const u8, keylen: usize, nonce: *const u8, noncelen: usize, data: *const u8, datalen: usize,
        sealed: *const u8, sealedlen: usize, taglen: usize, out: *mut u8, outlen: usize) -> Written;

    fn ht_session_fresh_sealing(s: *mut Session);
    fn ht_session_fresh_checking(s: *mut Session);
    fn ht_session_begin(s: *mut Session, key: *const u8, keylen: usize, nonce: *const u8, noncelen: usize) -> Answer;
    fn ht_session_begin_tag(s: *mut Session, key: *const u8, keylen: usize, nonce: *const u8, noncelen: usize, taglen: usize) -> Answer;
    fn ht_session_data(s: *mut Session, piece: *const u8, piecelen: usize) -> Answer;
    fn ht_session_seal_text(s: *mut Session, piece: *const u8, piecelen: usize, out: *mut u8, outlen: usize) -> Answer;
    fn ht_session_seal_close(s: *mut Session, out: *mut u8, outlen: usize) -> Answer;
    fn ht_session_check_text(s: *mut Session, piece: *const u8, piecelen: usize) -> Answer;
    fn ht_session_check_close(s: *mut Session, tag: *const u8, taglen: usize) -> Answer;

    fn ht_pack_ticket(ticket: Ticket, out: *mut u8, outlen: usize) -> Written;
    fn ht_unpack_ticket(packed: *const u8, packedlen: usize) -> UnpackedTicket;
    fn ht_move_ticket(ticket: Ticket, form: u8) -> UnpackedTicket;
    fn ht_pack_head(head: Head, out: *mut u8, outlen: usize) -> Written;
    fn ht_unpack_head(packed: *const u8, packedlen: usize) -> UnpackedHead;

    fn ht_writer_fresh(w: *mut Writer);
    fn ht_writer_start(w: *mut Writer, key: *const u8, keylen: usize, head: Head, out: *mut u8, outlen: usize) -> Answer;
    fn ht_writer_add(w: *mut Writer, ticket: Ticket, out: *mut u8, outlen: usize) -> Answer;
    fn ht_writer_finish(w: *mut Writer, out: *mut u8, outlen: usize) -> Answer;
    fn ht_open_tape(key: *const u8, keylen: usize, tape: *const u8, tapelen: usize, out: *mut u8, outlen: usize) -> Opened;
    fn ht_read_ticket(plain: *const u8, plainlen: usize, position: u64) -> Reading;
    fn ht_list_tape(key: *const u8, keylen: usize, tape: *const u8, tapelen: usize, out: *mut u8, outlen: usize) -> Written;

    fn ht_trucks(plain: *const u8, plainlen: usize) -> TruckCount;
    fn ht_trucks_of_two(first: *const u8, firstlen: usize, second: *const u8, secondlen: usize) -> TruckCounts;
    fn ht_truck_set_of(plain: *const u8, plainlen: usize, set: *mut [u64; 16]) -> TruckCount;

    fn ht_parting(first: *const u8, firstlen: usize, second: *const u8, secondlen: usize) -> Parted;
    fn ht_longer(first: *const u8, firstlen: usize, second: *const u8, secondlen: usize) -> Reception;

    fn ht_pair_tapes(first: *const u8, firstlen: usize, second: *const u8, secondlen: usize, pairs: *mut u32, pairslen: usize,
        left_first: *mut u32, left_firstlen: usize, left_second: *mut u32, left_secondlen: usize) -> Paired;
}

/// Puts zeros in place of words, by writes that the compiler may not leave out although nobody
/// reads the words afterwards.
#[inline]
fn clear(words: &mut [u64]) {
    for word in words {
        // SAFETY: a reference may be written through.
        unsafe { ptr::write_volatile(word, 0) };
    }
    compiler_fence(Ordering::SeqCst);
}

impl Drop for Session {
    #[inline]
    fn drop(&mut self) {
        clear(&mut self.words);
    }
}

impl Drop for Writer {
    #[inline]
    fn drop(&mut self) {
        clear(&mut self.words);
    }
}

/// Seals a message: ciphertext and then a tag of 16 bytes. 2, 5, 6.
pub fn seal(key: &[u8], nonce: &[u8], data: &[u8], text: &[u8], out: &mut [u8]) -> Written {
    // SAFETY: see the module's text.
    unsafe {
        ht_seal(
            key.as_ptr(),
            key.len(),
            nonce.as_ptr(),
            nonce.len(),
            data.as_ptr(),
            data.len(),
            text.as_ptr(),
            text.len(),
            out.as_mut_ptr(),
            out.len(),
        )
    }
}

/// Opens what `seal` wrote. 2, 5, 6, 7.
pub fn open(key: &[u8], nonce: &[u8], data: &[u8], sealed: &[u8], out: &mut [u8]) -> Written {
    // SAFETY: see the module's text.
    unsafe {
        ht_open(
            key.as_ptr(),
            key.len(),
            nonce.as_ptr(),
            nonce.len(),
            data.as_ptr(),
            data.len(),
            sealed.as_ptr(),
            sealed.len(),
            out.as_mut_ptr(),
            out.len(),
        )
    }
}

/// As [`seal`], with a tag of so many bytes, 8 to 16: the last of the sixteen. 9, 2, 5, 6.
pub fn seal_tag(
    key: &[u8],
    nonce: &[u8],
    data: &[u8],
    text: &[u8],
    tag_length: usize,
    out: &mut [u8],
) -> Written {
    // SAFETY: see the module's text.
    unsafe {
        ht_seal_tag(
            key.as_ptr(),
            key.len(),
            nonce.as_ptr(),
            nonce.len(),
            data.as_ptr(),
            data.len(),
            text.as_ptr(),
            text.len(),
            tag_length,
            out.as_mut_ptr(),
            out.len(),
        )
    }
}

/// Opens what `seal_tag` wrote with this length. 9, 2, 5, 6, 7.
pub fn open_tag(
    key: &[u8],
    nonce: &[u8],
    data: &[u8],
    sealed: &[u8],
    tag_length: usize,
    out: &mut [u8],
) -> Written {
    // SAFETY: see the module's text.
    unsafe {
        ht_open_tag(
            key.as_ptr(),
            key.len(),
            nonce.as_ptr(),
            nonce.len(),
            data.as_ptr(),
            data.len(),
            sealed.as_ptr(),
            sealed.len(),
            tag_length,
            out.as_mut_ptr(),
            out.len(),
        )
    }
}

impl Session {
    /// A fresh sealing session.
    #[must_use]
    pub fn fresh_sealing() -> Session {
        let mut session = Session { words: [0; 11] };
        // SAFETY: see the module's text.
        unsafe { ht_session_fresh_sealing(&mut session) };
        session
    }

    /// A fresh checking session.
    #[must_use]
    pub fn fresh_checking() -> Session {
        let mut session = Session { words: [0; 11] };
        // SAFETY: see the module's text.
        unsafe { ht_session_fresh_checking(&mut session) };
        session
    }

    /// The session's own words. They may change with the library: tests alone should look.
    #[doc(hidden)]
    #[must_use]
    pub fn words(&self) -> &[u64; 11] {
        &self.words
    }

    /// Takes key and nonce; the tag has 16 bytes. 1, 2.
    pub fn begin(&mut self, key: &[u8], nonce: &[u8]) -> Answer {
        // SAFETY: see the module's text.
        unsafe { ht_session_begin(self, key.as_ptr(), key.len(), nonce.as_ptr(), nonce.len()) }
    }

    /// As `begin`, and the tag has so many bytes, 8 to 16: the last of the sixteen. 1, 9, 2.
    pub fn begin_tag(&mut self, key: &[u8], nonce: &[u8], tag_length: usize) -> Answer {
        // SAFETY: see the module's text.
        unsafe {
            ht_session_begin_tag(
                self,
                key.as_ptr(),
                key.len(),
                nonce.as_ptr(),
                nonce.len(),
                tag_length,
            )
        }
    }

    /// Takes a piece of data. 1, 5.
    pub fn data(&mut self, piece: &[u8]) -> Answer {
        // SAFETY: see the module's text.
        unsafe { ht_session_data(self, piece.as_ptr(), piece.len()) }
    }

    /// Writes the ciphertext of the piece. 1, 5, 6.
    pub fn seal_text(&mut self, piece: &[u8], out: &mut [u8]) -> Answer {
        // SAFETY: see the module's text.
        unsafe {
            ht_session_seal_text(
                self,
                piece.as_ptr(),
                piece.len(),
                out.as_mut_ptr(),
                out.len(),
            )
        }
    }

    /// Writes the tag, of the length fixed at begin. 1, 6.
    pub fn seal_close(&mut self, out: &mut [u8]) -> Answer {
        // SAFETY: see the module's text.
        unsafe { ht_session_seal_close(self, out.as_mut_ptr(), out.len()) }
    }

    /// Takes ciphertext. 1, 5.
    pub fn check_text(&mut self, piece: &[u8]) -> Answer {
        // SAFETY: see the module's text.
        unsafe { ht_session_check_text(self, piece.as_ptr(), piece.len()) }
    }

    /// Compares the tag, of the length fixed at begin. 1, 2, and 7, which closes the session, too.
    pub fn check_close(&mut self, tag: &[u8]) -> Answer {
        // SAFETY: see the module's text.
        unsafe { ht_session_check_close(self, tag.as_ptr(), tag.len()) }
    }
}

/// Packs a ticket. 4, 6.
pub fn pack_ticket(ticket: Ticket, out: &mut [u8]) -> Written {
    // SAFETY: see the module's text.
    unsafe { ht_pack_ticket(ticket, out.as_mut_ptr(), out.len()) }
}

/// Unpacks a ticket. 2, 8.
pub fn unpack_ticket(packed: &[u8]) -> UnpackedTicket {
    // SAFETY: see the module's text.
    unsafe { ht_unpack_ticket(packed.as_ptr(), packed.len()) }
}

/// The ticket in the form asked for, with every other field kept. 4, 11.
pub fn move_ticket(ticket: Ticket, form: u8) -> UnpackedTicket {
    // SAFETY: see the module's text.
    unsafe { ht_move_ticket(ticket, form) }
}

/// Packs a head. 3, 6.
pub fn pack_head(head: Head, out: &mut [u8]) -> Written {
    // SAFETY: see the module's text.
    unsafe { ht_pack_head(head, out.as_mut_ptr(), out.len()) }
}

/// Unpacks a head. 2, 3.
pub fn unpack_head(packed: &[u8]) -> UnpackedHead {
    // SAFETY: see the module's text.
    unsafe { ht_unpack_head(packed.as_ptr(), packed.len()) }
}

impl Writer {
    /// A fresh writer.
    #[must_use]
    pub fn fresh() -> Writer {
        let mut writer = Writer { words: [0; 12] };
        // SAFETY: see the module's text.
        unsafe { ht_writer_fresh(&mut writer) };
        writer
    }

    /// The writer's own words. They may change with the library: tests alone should look.
    #[doc(hidden)]
    #[must_use]
    pub fn words(&self) -> &[u64; 12] {
        &self.words
    }

    /// Writes the head. 1, 2, 3, 6.
    pub fn start(&mut self, key: &[u8], head: Head, out: &mut [u8]) -> Answer {
        // SAFETY: see the module's text.
        unsafe {
            ht_writer_start(
                self,
                key.as_ptr(),
                key.len(),
                head,
                out.as_mut_ptr(),
                out.len(),
            )
        }
    }

    /// Writes the ciphertext of the packed ticket. 1, 4, 5, 6.
    pub fn add(&mut self, ticket: Ticket, out: &mut [u8]) -> Answer {
        // SAFETY: see the module's text.
        unsafe { ht_writer_add(self, ticket, out.as_mut_ptr(), out.len()) }
    }

    /// Writes the tag. 1, 6.
    pub fn finish(&mut self, out: &mut [u8]) -> Answer {
        // SAFETY: see the module's text.
        unsafe { ht_writer_finish(self, out.as_mut_ptr(), out.len()) }
    }
}

/// Opens a tape and writes its plain tickets. 2, 3, 6, 7, 8.
pub fn open_tape(key: &[u8], tape: &[u8], out: &mut [u8]) -> Opened {
    // SAFETY: see the module's text.
    unsafe {
        ht_open_tape(
            key.as_ptr(),
            key.len(),
            tape.as_ptr(),
            tape.len(),
            out.as_mut_ptr(),
            out.len(),
        )
    }
}

/// The ticket at a position of opened bytes, counted from 0. 2, 8.
pub fn read_ticket(plain: &[u8], position: u64) -> Reading {
    // SAFETY: see the module's text.
    unsafe { ht_read_ticket(plain.as_ptr(), plain.len(), position) }
}

/// The listing of a tape. 6.
pub fn list_tape(key: &[u8], tape: &[u8], out: &mut [u8]) -> Written {
    // SAFETY: see the module's text.
    unsafe {
        ht_list_tape(
            key.as_ptr(),
            key.len(),
            tape.as_ptr(),
            tape.len(),
            out.as_mut_ptr(),
            out.len(),
        )
    }
}

/// How many different trucks are on an opened tape. 2, 8.
pub fn trucks(plain: &[u8]) -> TruckCount {
    // SAFETY: see the module's text.
    unsafe { ht_trucks(plain.as_ptr(), plain.len()) }
}

/// How many different trucks are on both of two opened tapes, on either, and on just one. 2, 8.
pub fn trucks_of_two(first: &[u8], second: &[u8]) -> TruckCounts {
    // SAFETY: see the module's text.
    unsafe { ht_trucks_of_two(first.as_ptr(), first.len(), second.as_ptr(), second.len()) }
}

/// As [`trucks`], and writes the set: truck k is bit k % 64 of word k / 64; where refused, the words
/// stay as they were. 2, 8.
pub fn truck_set_of(plain: &[u8], set: &mut [u64; 16]) -> TruckCount {
    // SAFETY: see the module's text.
    unsafe { ht_truck_set_of(plain.as_ptr(), plain.len(), set) }
}

/// Where two receptions of one tape part, if they do. 10.
pub fn parting(first: &[u8], second: &[u8]) -> Parted {
    // SAFETY: see the module's text.
    unsafe { ht_parting(first.as_ptr(), first.len(), second.as_ptr(), second.len()) }
}

/// The longer of two receptions, whole, by its mast and bytes; the first mast's where both have as
/// many. Where they part, mast 1 and 0 bytes, as of two empty ones.
pub fn longer(first: &[u8], second: &[u8]) -> Reception {
    // SAFETY: see the module's text.
    unsafe { ht_longer(first.as_ptr(), first.len(), second.as_ptr(), second.len()) }
}

/// Pairs the tickets of two opened tapes and writes positions, counted from 1: two numbers a pair,
/// and those of the tickets left over. 2, 8, 12, 6.
pub fn pair_tapes(
    first: &[u8],
    second: &[u8],
    pairs: &mut [u32],
    left_first: &mut [u32],
    left_second: &mut [u32],
) -> Paired {
    // SAFETY: see the module's text.
    unsafe {
        ht_pair_tapes(
            first.as_ptr(),
            first.len(),
            second.as_ptr(),
            second.len(),
            pairs.as_mut_ptr(),
            pairs.len(),
            left_first.as_mut_ptr(),
            left_first.len(),
            left_second.as_mut_ptr(),
            left_second.len(),
        )
    }
}
