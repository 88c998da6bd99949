//! Safe calls on the proved haul tape library: ACORN-128 version 3, haul tickets and shift tapes.
//!
//! A [`Writer`] seals a shift's [`Ticket`]s behind a [`Head`] as a tape; [`open_tape`] opens it, a
//! [`Reader`] hands out its tickets, and [`listing`] prints them. [`Ticket::in_form`] moves a ticket
//! between form 1 and form 2, which is for shifts of a whole day. [`trucks()`] and [`trucks_of_two`]
//! count the trucks on opened tapes, and [`truck_set_of`] gives them as a set of bits. Where two masts
//! heard one tape, [`parting`] finds the byte in which their receptions part, and [`longer`] hands
//! back the longer one. [`pair_tapes`] pairs the tickets of two opened tapes, the cab's and the
//! crusher's, by truck and tipping time. [`message`] seals and opens byte messages whole; [`Sealing`]
//! and [`Checking`] take them in pieces. A call that is sent back says why by a [`Refusal`].
//!
//! ```
//! use haul_tape::{open_tape, Head, Reader, Refusal, Ticket, Writer};
//!
//! let key = [1; 16];
//! let ticket = Ticket {
//!     form: 1,
//!     truck: 5,
//!     shovel: 2,
//!     tip: 3,
//!     grade: 4,
//!     loaded: 3_600,
//!     tipped: 4_200,
//!     gross: 250_000,
//!     tare: 110_000,
//! };
//!
//! let mut tape = [0; 25 + 13];
//! let mut writer = Writer::new();
//! writer.start(&key, Head { device: 7, shift: 2, sheet: 1 }, &mut tape)?;
//! writer.add(ticket, &mut tape[9..])?;
//! writer.finish(&mut tape[22..])?;
//!
//! let mut plain = [0; 25 + 13];
//! let opened = open_tape(&key, &tape, &mut plain)?;
//! for ticket in Reader::new(&plain[..opened.bytes()]) {
//!     assert_eq!(ticket?.truck, 5);
//! }
//! # Ok::<(), Refusal>(())
//! ```
//!
//! # Keys, nonces and tags
//!
//! A key, nonce or tag is a slice, and a `&[u8; 16]` passes as it is; one of a wrong size is refused
//! with [`Refusal::Size`]. Keys and nonces have 16 bytes, and so has a tag, unless a call with `tag`
//! in its name asks for another length, 8 to 16; [`Refusal::TagLength`] is for any other. With the
//! library of its own version no call panics: whatever it is given, it is done or refused.
//!
//! Never use a key and nonce for a second message, nor with two lengths of tag, nor a key and head,
//! of which the library makes a tape's nonce, for a second tape: nothing here can notice it. One try
//! at guessing a tag of n bytes succeeds with a probability of 2^(-8n), and many tries add up:
//! sixteen bytes are recommended.
//!
//! # Secrets
//!
//! What a session or writer holds is as secret as its key. A close or finish that is done, and a
//! close that finds another tag, puts zeros in place of the cipher's state; a drop, in whatever
//! phase, puts zeros in place of all. `Debug` shows none of it.
//!
//! Not cleared are: what a move leaves behind, so that a session or writer should lie where it stays
//! before it takes its key; one that is forgotten ([`core::mem::forget`]); keys, texts and outputs,
//! which are the caller's; and the stack below a call, of which `include/haul_tape.h` says what may
//! stay there.
//!
//! # Features
//!
//! The crate needs `core` alone and has no dependencies. The feature `alloc`, on unless the
//! dependency says `default-features = false`, adds the calls that answer a `Vec` or `String`:
//! `message::seal_to_vec`, `message::open_to_vec`, `message::seal_tag_to_vec`,
//! `message::open_tag_to_vec`, `listing_to_string` and `pair_tapes_to_vecs`. There is no other
//! feature.
//!
//! On Linux `core` as it comes refers to the unwinder. A program without `std` links there when it
//! is optimized with `panic = "abort"` and `lto = true`; a static library, optimized with
//! `panic = "abort"`, when the C program is linked with `-Wl,--gc-sections`.
//!
//! # The static library
//!
//! `tools/build haul_tape` writes it, for x86-64, to `target/staticlib`, where this crate looks for
//! it unless the environment variable `HAUL_TAPE_LIB_DIR` names another directory, by an absolute path.
//! It needs `memcpy` and `memset`. `cargo check` and `cargo doc` do without the library.
//!
//! # What is proved
//!
//! The library is proved. This crate is not: its calls hand pointers and lengths to the library and
//! turn its numbers into [`Refusal`]s, and they are tested, beside an independent implementation.

#![no_std]
#![deny(unsafe_code)]

#[cfg(feature = "alloc")]
extern crate alloc;

mod answers;
#[allow(unsafe_code)]
pub mod exports;
pub mod message;
mod pairing;
mod receptions;
mod refusal;
mod session;
mod tape;
mod ticket;
mod trucks;

pub use pairing::{pair_tapes, Paired};
#[cfg(feature = "alloc")]
pub use pairing::{pair_tapes_to_vecs, Pairing};
pub use receptions::{longer, parting, Parted};
pub use refusal::Refusal;
pub use session::{Checking, Done, Sealing};
#[cfg(feature = "alloc")]
pub use tape::listing_to_string;
pub use tape::{listing, open_tape, Opened, Reader, Writer};
pub use ticket::{Head, Ticket};
pub use trucks::{truck_set_of, trucks, trucks_of_two, TruckCounts};

/// Bytes of a key.
pub const KEY_BYTES: usize = 16;
/// Bytes of a nonce.
pub const NONCE_BYTES: usize = 16;
/// Bytes of a tag, where no other length is fixed; the most that it can have.
pub const TAG_BYTES: usize = 16;
/// The fewest bytes of a tag.
pub const LEAST_TAG_BYTES: usize = 8;
/// Bytes of a packed ticket.
pub const TICKET_BYTES: usize = 13;
/// Bytes of a packed head.
pub const HEAD_BYTES: usize = 9;
/// The most bytes of data, and of text, in one message.
pub const MOST_BYTES: usize = 65_536;
/// The most tickets on one tape.
pub const MOST_TICKETS: usize = 5_000;
/// The most bytes of a tape.
pub const MOST_TAPE_BYTES: usize = 65_025;
/// The most plain bytes that a tape opens to.
pub const MOST_PLAIN_BYTES: usize = 65_000;
/// Room for every listing.
pub const MOST_LISTING_BYTES: usize = 190_054;
