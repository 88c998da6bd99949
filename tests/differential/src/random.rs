//! Values for the tests, repeatable by their seed.

use haul_tape::{Head, Ticket};
use std::env;
use std::time::{SystemTime, UNIX_EPOCH};

/// The environment variable that sets the seed, to run a test again as it was.
pub const SEED_VARIABLE: &str = "HAUL_TAPE_SEED";

/// A generator: splitmix64.
pub struct Random(u64);

impl Random {
    pub fn new(seed: u64) -> Random {
        Random(seed)
    }

    /// The generator of a test. Its seed is taken from the environment or else from the clock, and
    /// printed.
    pub fn for_test() -> Random {
        let seed = match env::var(SEED_VARIABLE) {
            Ok(text) => text.parse().expect("the seed is a number"),
            Err(_) => SystemTime::now()
                .duration_since(UNIX_EPOCH)
                .expect("the clock stands after 1970")
                .as_nanos() as u64,
        };
        println!("{SEED_VARIABLE}={seed}");
        Random(seed)
    }

    pub fn word(&mut self) -> u64 {
        self.0 = self.0.wrapping_add(0x9E37_79B9_7F4A_7C15);
        let mut z = self.0;
        z = (z ^ (z >> 30)).wrapping_mul(0xBF58_476D_1CE4_E5B9);
        z = (z ^ (z >> 27)).wrapping_mul(0x94D0_49BB_1331_11EB);
        z ^ (z >> 31)
    }

    /// From 0 to `bound` - 1.
    pub fn below(&mut self, bound: usize) -> usize {
        (self.word() % bound as u64) as usize
    }

    /// From `low` to `high`, both included.
    pub fn between(&mut self, low: u32, high: u32) -> u32 {
        low + (self.word() % (u64::from(high - low) + 1)) as u32
    }

    /// True once in so many times.
    pub fn once_in(&mut self, times: usize) -> bool {
        self.below(times) == 0
    }

    pub fn pick<T: Copy>(&mut self, from: &[T]) -> T {
        from[self.below(from.len())]
    }

    /// Puts the items in any order.
    pub fn shuffle<T>(&mut self, items: &mut [T]) {
        for left in (2..=items.len()).rev() {
            items.swap(left - 1, self.below(left));
        }
    }

    pub fn bytes(&mut self, length: usize) -> Vec<u8> {
        (0..length).map(|_| self.word() as u8).collect()
    }

    /// 16 bytes, for a key or a nonce.
    pub fn block(&mut self) -> [u8; 16] {
        let mut block = [0; 16];
        block.fill_with(|| self.word() as u8);
        block
    }

    /// A length that a tag may have.
    pub fn tag_bytes(&mut self) -> usize {
        8 + self.below(9)
    }

    /// A length for a tag; rarely one that it may not have.
    pub fn any_tag_bytes(&mut self) -> usize {
        match self.once_in(6) {
            true => self.pick(&WRONG_TAG_BYTES),
            false => self.tag_bytes(),
        }
    }

    /// A valid head.
    pub fn head(&mut self) -> Head {
        Head {
            device: self.between(1, u32::MAX),
            shift: self.between(1, 1_000_000),
            sheet: self.between(1, 1_000_000),
        }
    }

    /// A valid ticket, of either form. One in eight is a trip back empty.
    pub fn ticket(&mut self) -> Ticket {
        match self.once_in(8) {
            true => self.empty_trip(),
            false => self.ticket_with_load(),
        }
    }

    /// A valid ticket whose tare is its gross.
    pub fn empty_trip(&mut self) -> Ticket {
        let ticket = self.ticket_with_load();
        let gross = match self.below(8) {
            0 => 0,
            1 => 1_048_575,
            _ => ticket.gross,
        };
        Ticket {
            gross,
            tare: gross,
            ..ticket
        }
    }

    /// A valid ticket whose tare is below its gross. About half are of form 2, and half of those are
    /// tipped too late for form 1.
    pub fn ticket_with_load(&mut self) -> Ticket {
        let form = self.pick(&[1, 2]);
        self.ticket_of_form(form)
    }

    /// A valid ticket of form 1 or 2 whose tare is below its gross.
    pub fn ticket_of_form(&mut self, form: u8) -> Ticket {
        let tipped = self.between(0, last_second(form));
        let gross = self.between(1, 1_048_575);
        Ticket {
            form,
            truck: self.between(1, 1_023) as u16,
            shovel: self.between(1, 63) as u8,
            tip: self.between(1, 63) as u8,
            grade: self.between(0, 9) as u8,
            loaded: self.between(0, tipped),
            tipped,
            gross,
            tare: self.between(0, gross - 1),
        }
    }

    /// A valid ticket of this truck and tipped time, of either form where form 1 has the time.
    pub fn ticket_tipped(&mut self, truck: u16, tipped: u32) -> Ticket {
        let ticket = self.ticket();
        let form = if tipped > last_second(1) {
            2
        } else {
            self.pick(&[1, 2])
        };
        Ticket {
            form,
            truck,
            loaded: self.between(0, tipped),
            tipped,
            ..ticket
        }
    }

    /// A head with fields at and beyond the ends of their ranges.
    pub fn edge_head(&mut self) -> Head {
        let head = self.head();
        Head {
            device: self.pick(&[0, 1, head.device, u32::MAX]),
            shift: self.pick(&EDGES_OF_SHIFT_AND_SHEET),
            sheet: self.pick(&EDGES_OF_SHIFT_AND_SHEET),
        }
    }

    /// A ticket with one or two fields at or beyond the ends of their ranges.
    pub fn edge_ticket(&mut self) -> Ticket {
        let mut ticket = self.ticket();
        for _ in 0..1 + self.below(2) {
            let t = &mut ticket;
            match self.below(9) {
                0 => t.form = self.pick(&[0, 1, 2, 3, 15, 16, 17, 18, 255]),
                1 => t.truck = self.pick(&[0, 1, 1_023, 1_024, 1_025, 2_047, 65_535]),
                2 => t.shovel = self.pick(&[0, 1, 63, 64, 65, 127, 255]),
                3 => t.tip = self.pick(&[0, 1, 63, 64, 65, 127, 255]),
                4 => t.grade = self.pick(&[0, 9, 10, 15, 16, 25, 255]),
                5 => {
                    let more = t.tipped.saturating_add(1);
                    let pick = [0, t.tipped, more, self.pick(&EDGES_OF_TIMES)];
                    t.loaded = self.pick(&pick);
                }
                6 => {
                    let less = t.loaded.saturating_sub(1);
                    let around = [65_536, 131_072].map(|more| t.tipped.wrapping_add(more));
                    let edges = [(); 2].map(|()| self.pick(&EDGES_OF_TIMES));
                    let pick = [less, t.loaded, around[0], around[1], edges[0], edges[1]];
                    t.tipped = self.pick(&pick);
                }
                7 => {
                    let less = t.tare.saturating_sub(1);
                    let around = t.gross.wrapping_add(1 << 20);
                    let pick = [0, 1, less, t.tare, around, 1_048_575, 1_048_576, u32::MAX];
                    t.gross = self.pick(&pick);
                }
                _ => {
                    let less = t.gross.saturating_sub(1);
                    let more = t.gross.saturating_add(1);
                    let pick = [0, less, t.gross, more, 1_048_575, 1_048_576, u32::MAX];
                    t.tare = self.pick(&pick);
                }
            }
        }
        ticket
    }
}

/// Lengths that no tag has: around 8 to 16, 64 and 128 as if they were bits, and those that are 8 or
/// 16 if their upper bits are lost.
pub const WRONG_TAG_BYTES: [usize; 15] = [
    0,
    1,
    4,
    7,
    17,
    18,
    24,
    32,
    64,
    128,
    256 + 8,
    256 + 16,
    65_536 + 8,
    (1 << 32) + 16,
    usize::MAX,
];

const EDGES_OF_SHIFT_AND_SHEET: [u32; 9] = [
    0,
    1,
    2,
    999_999,
    1_000_000,
    1_000_001,
    1_048_576,
    1_048_577,
    u32::MAX,
];

/// Around the last seconds of the forms, and around sixteen and seventeen bits.
const EDGES_OF_TIMES: [u32; 11] = [
    0,
    43_199,
    43_200,
    65_535,
    65_536,
    86_399,
    86_400,
    86_401,
    131_071,
    131_072,
    u32::MAX,
];

/// The last second of the shift in form 1 or 2.
pub fn last_second(form: u8) -> u32 {
    match form {
        1 => 43_199,
        2 => 86_399,
        _ => panic!("there is no form {form}"),
    }
}

/// The ticket with a tare one above its gross. The greatest gross is lowered, so that the tare fits
/// its width.
pub fn tare_above_gross(ticket: Ticket) -> Ticket {
    let gross = ticket.gross.min(1_048_574);
    Ticket {
        gross,
        tare: gross + 1,
        ..ticket
    }
}

/// The bytes with one bit turned.
pub fn turned(bytes: &[u8], bit: usize) -> Vec<u8> {
    let mut bytes = bytes.to_vec();
    bytes[bit / 8] ^= 1 << (bit % 8);
    bytes
}
