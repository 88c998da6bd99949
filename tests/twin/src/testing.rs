//! The tests' ticket, and repeatable pseudo-random values.

use crate::ticket::Ticket;

/// Document 01, case (h).
pub const TICKET: Ticket = Ticket {
    form: 1,
    truck: 5,
    shovel: 2,
    tip: 3,
    grade: 4,
    loaded: 3_600,
    tipped: 4_200,
    gross: 250_000,
    tare: 110_000,
};

/// A 64-bit xorshift generator.
pub struct XorShift(u64);

impl XorShift {
    pub fn new(seed: u64) -> XorShift {
        XorShift(seed.wrapping_mul(0x9E37_79B9_7F4A_7C15) | 1)
    }

    pub fn next(&mut self) -> u64 {
        self.0 ^= self.0 << 13;
        self.0 ^= self.0 >> 7;
        self.0 ^= self.0 << 17;
        self.0
    }

    /// A value from 0 to `bound` - 1.
    pub fn below(&mut self, bound: usize) -> usize {
        ((self.next() >> 11) % bound as u64) as usize
    }

    /// A value from `low` to `high`, both included.
    pub fn between(&mut self, low: u32, high: u32) -> u32 {
        low + self.below((high - low) as usize + 1) as u32
    }

    pub fn bytes(&mut self, length: usize) -> Vec<u8> {
        (0..length).map(|_| (self.next() >> 32) as u8).collect()
    }

    pub fn block(&mut self) -> [u8; 16] {
        self.bytes(16).try_into().expect("16 bytes")
    }

    /// A valid ticket. Half are of form 2, and half of those are tipped too late for form 1. One in
    /// eight is a trip back empty, and of these one in eight has gross 0.
    pub fn ticket(&mut self) -> Ticket {
        let form = self.between(1, 2) as u8;
        let tipped = self.between(0, if form == 1 { 43_199 } else { 86_399 });
        let (empty, nothing) = (self.below(8) == 0, self.below(8) == 0);
        let gross = match empty && nothing {
            true => 0,
            false => self.between(1, (1 << 20) - 1),
        };
        Ticket {
            form,
            truck: self.between(1, 1_023) as u16,
            shovel: self.between(1, 63) as u8,
            tip: self.between(1, 63) as u8,
            grade: self.between(0, 9) as u8,
            loaded: self.between(0, tipped),
            tipped,
            gross,
            tare: if empty { gross } else { self.between(0, gross) },
        }
    }

    /// A ticket with times at the edges of the ranges and of the widths, and of a form that may not
    /// be one. One in sixteen has truck 0, one in sixteen more tare than gross. Most break the rule.
    pub fn edge_ticket(&mut self) -> Ticket {
        const FORMS: [u8; 9] = [1, 1, 1, 2, 2, 2, 0, 3, 15];
        const TIMES: [u32; 14] = [
            0, 1, 43_198, 43_199, 43_200, 43_201, 65_535, 65_536, 86_398, 86_399, 86_400, 86_401,
            131_071, 131_072,
        ];
        let mut ticket = Ticket {
            form: FORMS[self.below(FORMS.len())],
            loaded: TIMES[self.below(TIMES.len())],
            tipped: TIMES[self.below(TIMES.len())],
            ..self.ticket()
        };
        match self.below(16) {
            0 => ticket.truck = 0,
            1 => ticket.tare = ticket.gross + 1,
            _ => {}
        }
        ticket
    }
}
