//! The peer in Rust: its calls for C, which `bench/peer/peer_rust.h` declares.
//!
//! What `unsafe` rests on is the caller's part, as in the header of the library: each pointer is
//! valid for the length that it comes with, an output overlaps nothing else, and a writer is set
//! fresh first.
#![allow(clippy::missing_safety_doc)]

mod steps32;

use std::slice::{from_raw_parts, from_raw_parts_mut};
use steps32::{Done, Head, Ticket, Writer};

// as in peer_rust.h
const _: () = assert!(size_of::<Writer>() == 80);

#[repr(C)]
pub struct Answer {
    refused: u32,
    bytes: u64,
    steps: u64,
}

impl From<Result<Done, u32>> for Answer {
    fn from(result: Result<Done, u32>) -> Answer {
        let (refused, bytes, steps) = match result {
            Ok(done) => (0, done.bytes, done.steps),
            Err(number) => (number, 0, 0),
        };
        Answer {
            refused,
            bytes,
            steps,
        }
    }
}

#[repr(C)]
pub struct Opened {
    refused: u32,
    tickets: u64,
    net: u64,
}

#[no_mangle]
pub unsafe extern "C" fn rust_seal(
    key: &[u8; 16],
    nonce: &[u8; 16],
    data: *const u8,
    datalen: usize,
    text: *const u8,
    textlen: usize,
    out: *mut u8,
) {
    let data = from_raw_parts(data, datalen);
    let text = from_raw_parts(text, textlen);
    steps32::seal(
        key,
        nonce,
        data,
        text,
        from_raw_parts_mut(out, textlen + 16),
    );
}

#[no_mangle]
pub unsafe extern "C" fn rust_open(
    key: &[u8; 16],
    nonce: &[u8; 16],
    data: *const u8,
    datalen: usize,
    sealed: *const u8,
    sealedlen: usize,
    out: *mut u8,
) -> u32 {
    let data = from_raw_parts(data, datalen);
    let sealed = from_raw_parts(sealed, sealedlen);
    let out = from_raw_parts_mut(out, sealedlen.saturating_sub(16));
    steps32::open(key, nonce, data, sealed, out).map_or(7, |_| 0)
}

#[no_mangle]
pub unsafe extern "C" fn rust_fresh(w: *mut Writer) {
    w.write(Writer::new());
}

#[no_mangle]
pub unsafe extern "C" fn rust_start(
    w: &mut Writer,
    key: *const u8,
    keylen: usize,
    head: Head,
    out: *mut u8,
    outlen: usize,
) -> Answer {
    let key = from_raw_parts(key, keylen);
    w.start(key, head, from_raw_parts_mut(out, outlen)).into()
}

#[no_mangle]
pub unsafe extern "C" fn rust_add(
    w: &mut Writer,
    ticket: Ticket,
    out: *mut u8,
    outlen: usize,
) -> Answer {
    w.add(&ticket, from_raw_parts_mut(out, outlen)).into()
}

#[no_mangle]
pub unsafe extern "C" fn rust_finish(w: &mut Writer, out: *mut u8, outlen: usize) -> Answer {
    w.finish(from_raw_parts_mut(out, outlen)).into()
}

#[no_mangle]
pub unsafe extern "C" fn rust_open_tape(
    key: *const u8,
    keylen: usize,
    tape: *const u8,
    tapelen: usize,
    out: *mut u8,
    outlen: usize,
) -> Opened {
    let (key, tape) = (from_raw_parts(key, keylen), from_raw_parts(tape, tapelen));
    let (refused, tickets, net) =
        match steps32::open_tape(key, tape, from_raw_parts_mut(out, outlen)) {
            Ok((tickets, net)) => (0, tickets, net),
            Err(number) => (number, 0, 0),
        };
    Opened {
        refused,
        tickets,
        net,
    }
}
