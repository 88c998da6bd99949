//! For the tests of opened tapes: the plain bytes of tickets, and repeatable values.

use haul_tape_twin::ticket::{pack, Ticket};

/// The opened tape with these tickets.
pub fn plain(tickets: &[Ticket]) -> Vec<u8> {
    let packed = |ticket| {
        let mut packed = [0; 13];
        pack(ticket, &mut packed).unwrap();
        packed
    };
    tickets.iter().flat_map(packed).collect()
}

/// Repeatable values: splitmix64.
pub struct Values(pub u64);

impl Values {
    /// From 0 to `bound` - 1.
    pub fn below(&mut self, bound: u32) -> u32 {
        self.0 = self.0.wrapping_add(0x9E37_79B9_7F4A_7C15);
        let mut z = self.0;
        z = (z ^ (z >> 30)).wrapping_mul(0xBF58_476D_1CE4_E5B9);
        z = (z ^ (z >> 27)).wrapping_mul(0x94D0_49BB_1331_11EB);
        ((z ^ (z >> 31)) % u64::from(bound)) as u32
    }
}
