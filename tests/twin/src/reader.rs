//! The reader over opened bytes (document 01, "Ticket, head, tape").

use crate::number;
use crate::tape::tickets_in;
use crate::ticket::{self, Ticket, TICKET_BYTES};

/// What a reader answers.
#[derive(Clone, Copy, PartialEq, Eq, Debug)]
pub enum Next {
    Ticket(Ticket),
    End,
    Refused(u8),
}

/// Hands out the tickets of opened bytes in turn. It may be made over any bytes.
#[derive(Clone, PartialEq, Eq, Debug)]
pub struct Reader<'a> {
    bytes: &'a [u8],
    position: usize,
}

impl<'a> Reader<'a> {
    /// A reader before the first ticket.
    pub fn new(bytes: &'a [u8]) -> Reader<'a> {
        Reader { bytes, position: 0 }
    }

    /// Tickets handed out.
    pub fn position(&self) -> u64 {
        self.position as u64
    }

    /// The next ticket, or the end. Where the bytes are not 13n with n at most 5,000 the answer is
    /// always 2; before a ticket that does not unpack it is 8, and the reader stays there.
    #[allow(clippy::should_implement_trait)]
    pub fn next(&mut self) -> Next {
        let Some(n) = tickets_in(self.bytes.len()) else {
            return Next::Refused(number::LENGTH);
        };
        if self.position == n {
            return Next::End;
        }
        let from = TICKET_BYTES * self.position;
        match ticket::unpack(&self.bytes[from..from + TICKET_BYTES]) {
            Ok(ticket) => {
                self.position += 1;
                Next::Ticket(ticket)
            }
            Err(number) => Next::Refused(number),
        }
    }
}

#[cfg(test)]
mod tests {
    use super::*;
    use crate::testing::TICKET;

    const GOOD: [u8; 13] = [
        0x10, 0x14, 0x20, 0xD0, 0x38, 0x40, 0x41, 0xA0, 0xF4, 0x24, 0x06, 0xB6, 0xC0,
    ];

    /// The same in form 2.
    const FORM_2: [u8; 13] = [
        0x20, 0x14, 0x20, 0xD0, 0x1C, 0x20, 0x10, 0x68, 0x3D, 0x09, 0x01, 0xAD, 0xB0,
    ];

    #[test]
    fn no_tickets() {
        let mut reader = Reader::new(&[]);
        assert_eq!(reader.next(), Next::End);
        assert_eq!(reader.next(), Next::End);
        assert_eq!(reader.position(), 0);
    }

    #[test]
    fn in_turn_and_then_the_end() {
        let bytes = GOOD.repeat(3);
        let ticket = ticket::unpack(&GOOD).unwrap();
        let mut reader = Reader::new(&bytes);
        for handed_out in 1..=3 {
            assert_eq!(reader.next(), Next::Ticket(ticket));
            assert_eq!(reader.position(), handed_out);
        }
        assert_eq!(reader.next(), Next::End);
        assert_eq!(reader.next(), Next::End);
        assert_eq!(reader.position(), 3);
    }

    #[test]
    fn wrong_lengths() {
        let bytes = GOOD.repeat(5_002);
        for length in [1, 12, 14, 25, 64_999, 65_001, 65_013, 65_026] {
            let mut reader = Reader::new(&bytes[..length]);
            for _ in 0..3 {
                assert_eq!(reader.next(), Next::Refused(2));
                assert_eq!(reader.position(), 0);
            }
        }
        let mut reader = Reader::new(&bytes[..65_000]);
        for _ in 0..5_000 {
            assert!(matches!(reader.next(), Next::Ticket(_)));
        }
        assert_eq!(reader.next(), Next::End);
    }

    /// The second with a spare bit set, or with tare 250,001 beside gross 250,000.
    #[test]
    fn stays_before_a_ticket_that_does_not_unpack() {
        for last in [[0x06, 0xB6, 0xC1], [0x0F, 0x42, 0x44]] {
            let mut bytes = GOOD.repeat(3);
            bytes[23..26].copy_from_slice(&last);
            let mut reader = Reader::new(&bytes);
            assert!(matches!(reader.next(), Next::Ticket(_)));
            for _ in 0..3 {
                assert_eq!(reader.next(), Next::Refused(8));
                assert_eq!(reader.position(), 1);
            }
        }
    }

    /// Both forms in one row.
    #[test]
    fn hands_out_both_forms() {
        let bytes = [GOOD, FORM_2, FORM_2, GOOD, FORM_2].concat();
        let mut reader = Reader::new(&bytes);
        for form in [1, 2, 2, 1, 2] {
            let ticket = Ticket { form, ..TICKET };
            assert_eq!(reader.next(), Next::Ticket(ticket));
        }
        assert_eq!(reader.next(), Next::End);
        assert_eq!(reader.position(), 5);
    }

    /// The second of form 2 and tipped at 86,400 or at 131,071, or of form 0, 3 or 15.
    #[test]
    fn stays_before_a_form_that_does_not_unpack() {
        let mut bad = [FORM_2; 5];
        bad[0][5..8].copy_from_slice(&[0x21, 0x51, 0x80]);
        bad[1][5..8].copy_from_slice(&[0x21, 0xFF, 0xFF]);
        bad[2][0] = 0x00;
        bad[3][0] = 0x30;
        bad[4][0] = 0xF0;
        for second in bad {
            let bytes = [FORM_2, second, GOOD].concat();
            let mut reader = Reader::new(&bytes);
            assert!(matches!(reader.next(), Next::Ticket(_)));
            for _ in 0..3 {
                assert_eq!(reader.next(), Next::Refused(8));
                assert_eq!(reader.position(), 1);
            }
        }
    }

    /// The second with tare 250,000 beside gross 250,000.
    #[test]
    fn hands_out_a_trip_back_empty() {
        let mut bytes = GOOD.repeat(3);
        bytes[23..26].copy_from_slice(&[0x0F, 0x42, 0x40]);
        let ticket = ticket::unpack(&GOOD).unwrap();
        let empty = Ticket {
            tare: 250_000,
            ..ticket
        };
        let mut reader = Reader::new(&bytes);
        for ticket in [ticket, empty, ticket] {
            assert_eq!(reader.next(), Next::Ticket(ticket));
        }
        assert_eq!(reader.next(), Next::End);
        assert_eq!(reader.position(), 3);
    }
}
