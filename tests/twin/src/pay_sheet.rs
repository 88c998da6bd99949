//! The pay sheet: a tape's pay in whole cents, and the share of each contractor (document 02, P8).
//!
//! An opened tape is its plain bytes, 13 for each ticket. A rate is in cents per tonne, and a net in
//! kilograms, so that net times rate is in thousandths of a cent.

use crate::number;
use crate::tape::{open_tape, tickets_in};
use crate::ticket::{self, TICKET_BYTES};
use std::cmp::Reverse;

/// How many contractors there are; they have the numbers from 0.
pub const CONTRACTORS: usize = 16;
/// How many truck numbers each contractor has.
pub const TRUCKS_OF_A_CONTRACTOR: u16 = 64;
/// The highest rate.
pub const MOST_RATE: u64 = 1_000_000;

/// What is paid for a tape, in cents.
#[derive(Clone, Copy, PartialEq, Eq, Debug)]
pub struct PaySheet {
    pub pay: u64,
    /// By contractor.
    pub shares: [u64; CONTRACTORS],
}

/// The contractor that a truck belongs to.
pub fn contractor(truck: u16) -> usize {
    usize::from(truck / TRUCKS_OF_A_CONTRACTOR)
}

/// The pay sheet of an opened tape at a rate. Answers 13 if the rate is too high, then 2 if the length
/// is not 13n with n at most 5,000, then 8 if a ticket does not unpack.
pub fn pay_sheet(plain: &[u8], rate: u64) -> Result<PaySheet, u8> {
    allow_rate(rate)?;
    tickets_in(plain.len()).ok_or(number::LENGTH)?;
    let mut nets = [0; CONTRACTORS];
    for packed in plain.chunks(TICKET_BYTES) {
        let ticket = ticket::unpack(packed)?;
        nets[contractor(ticket.truck)] += u128::from(ticket.net());
    }
    Ok(sheet_of(nets, rate.into()))
}

/// Number 13.
fn allow_rate(rate: u64) -> Result<(), u8> {
    if rate > MOST_RATE {
        return Err(number::RATE);
    }
    Ok(())
}

/// The pay sheet for the contractors' nets.
fn sheet_of(nets: [u128; CONTRACTORS], rate: u128) -> PaySheet {
    let exact = nets.map(|net| net * rate);
    let pay = nets.iter().sum::<u128>() * rate / 1_000;
    let mut shares = exact.map(|thousandths| thousandths / 1_000);
    let left = pay - shares.iter().sum::<u128>();

    let mut order: Vec<usize> = (0..CONTRACTORS).collect();
    order.sort_by_key(|&c| (Reverse(exact[c] % 1_000), c));
    for &c in &order[..left as usize] {
        shares[c] += 1;
    }
    PaySheet {
        pay: cents(pay),
        shares: shares.map(cents),
    }
}

fn cents(number: u128) -> u64 {
    u64::try_from(number).expect("5,000 tickets have less pay")
}

/// What the program prints for what it reads: a rate and a line feed, 16 bytes of key, and the tape.
/// Every line ends with a line feed.
pub fn printed(input: &[u8]) -> Vec<u8> {
    let Some((rate, rest)) = rate_line(input) else {
        return b"NO RATE\n".to_vec();
    };
    match lines(rate, rest) {
        Ok(text) => text.into_bytes(),
        Err(number) => format!("REFUSED {number}\n").into_bytes(),
    }
}

/// The rate on the first line, and what stands behind it; nothing unless the line is 1 to 19 decimal
/// digits and a line feed.
fn rate_line(input: &[u8]) -> Option<(u64, &[u8])> {
    let end = input.iter().position(|&byte| byte == b'\n')?;
    let (digits, rest) = (&input[..end], &input[end + 1..]);
    if !(1..=19).contains(&digits.len()) || !digits.iter().all(u8::is_ascii_digit) {
        return None;
    }
    let rate = digits
        .iter()
        .fold(0, |rate, &digit| 10 * rate + u64::from(digit - b'0'));
    Some((rate, rest))
}

/// The lines for a key and the tape behind it. The number of the rate comes before those of opening.
fn lines(rate: u64, key_and_tape: &[u8]) -> Result<String, u8> {
    allow_rate(rate)?;
    let Some((key, tape)) = key_and_tape.split_first_chunk::<16>() else {
        return Err(number::LENGTH);
    };
    let mut plain = vec![0; tape.len()];
    let (tickets, _) = open_tape(key, tape, &mut plain)?;
    let sheet = pay_sheet(&plain[..TICKET_BYTES * tickets as usize], rate)?;

    let mut text = format!("PAY {}\n", sheet.pay);
    for (contractor, share) in sheet.shares.iter().enumerate() {
        text.push_str(&format!("{contractor} {share}\n"));
    }
    Ok(text)
}
