//! Tickets and heads, and their packing (document 01, "Ticket, head, tape"; tickets of form 2 from
//! document 02, P6).
//!
//! Packed fields stand one behind the other and fill each byte from its most significant bit
//! (document 01, "Bits of a byte").

use crate::number;

/// Bytes of a packed ticket.
pub const TICKET_BYTES: usize = 13;
/// Bytes of a packed head.
pub const HEAD_BYTES: usize = 9;

/// One haul, with a load or without (document 02, P2). The spare bits are no field: they are written
/// as zeros and read as nothing else.
#[derive(Clone, Copy, PartialEq, Eq, Debug)]
pub struct Ticket {
    /// 1, or 2 for shifts of a whole day.
    pub form: u8,
    pub truck: u16,
    pub shovel: u8,
    pub tip: u8,
    pub grade: u8,
    /// Second of the shift.
    pub loaded: u32,
    /// Second of the shift.
    pub tipped: u32,
    /// Kilograms.
    pub gross: u32,
    /// Kilograms. Equal to gross on a trip back empty.
    pub tare: u32,
}

impl Ticket {
    /// Whether every rule holds. The rules keep each field within its width.
    pub fn is_valid(&self) -> bool {
        let Some(rule) = form_rule(self.form) else {
            return false;
        };
        (1..=1_023).contains(&self.truck)
            && (1..=63).contains(&self.shovel)
            && (1..=63).contains(&self.tip)
            && self.grade <= 9
            && self.tipped <= rule.last_second
            && self.loaded <= self.tipped
            && self.gross < 1 << 20
            && self.tare <= self.gross
    }

    /// Gross minus tare, in kilograms: 0 for a trip back empty. A ticket with more tare than gross is
    /// not valid; its net is given as 0, too.
    pub fn net(&self) -> u32 {
        self.gross.saturating_sub(self.tare)
    }
}

/// In what the forms of a ticket differ.
struct FormRule {
    /// The last second of the shift.
    last_second: u32,
    /// Bits of loaded, and of tipped.
    time_bits: u32,
    /// Bits behind the last field.
    spare_bits: u32,
}

/// The rule of a form, if there is such a form.
fn form_rule(form: u8) -> Option<FormRule> {
    match form {
        1 => Some(FormRule {
            last_second: 43_199,
            time_bits: 16,
            spare_bits: 2,
        }),
        2 => Some(FormRule {
            last_second: 86_399,
            time_bits: 17,
            spare_bits: 0,
        }),
        _ => None,
    }
}

/// What stands at the start of a tape.
#[derive(Clone, Copy, PartialEq, Eq, Debug)]
pub struct Head {
    pub device: u32,
    pub shift: u32,
    pub sheet: u32,
}

impl Head {
    /// Whether every field is in its range.
    pub fn is_valid(&self) -> bool {
        self.device >= 1
            && (1..=1_000_000).contains(&self.shift)
            && (1..=1_000_000).contains(&self.sheet)
    }
}

/// Packs a ticket at the start of `out`; answers 13, or 4, or 6.
pub fn pack(ticket: &Ticket, out: &mut [u8]) -> Result<usize, u8> {
    let rule = match form_rule(ticket.form) {
        Some(rule) if ticket.is_valid() => rule,
        _ => return Err(number::TICKET),
    };
    let spare = 0;
    let packed = pack_fields(&[
        (u32::from(ticket.form), 4),
        (u32::from(ticket.truck), 10),
        (u32::from(ticket.shovel), 6),
        (u32::from(ticket.tip), 6),
        (u32::from(ticket.grade), 4),
        (ticket.loaded, rule.time_bits),
        (ticket.tipped, rule.time_bits),
        (ticket.gross, 20),
        (ticket.tare, 20),
        (spare, rule.spare_bits),
    ]);
    write(&packed, out)
}

/// Unpacks a ticket; answers 2 if there are not 13 bytes, 8 if they are not a valid ticket's.
pub fn unpack(bytes: &[u8]) -> Result<Ticket, u8> {
    if bytes.len() != TICKET_BYTES {
        return Err(number::LENGTH);
    }
    let mut fields = Fields::new(bytes);
    let form = fields.take(4) as u8;
    let Some(rule) = form_rule(form) else {
        return Err(number::UNPACK);
    };
    let ticket = Ticket {
        form,
        truck: fields.take(10) as u16,
        shovel: fields.take(6) as u8,
        tip: fields.take(6) as u8,
        grade: fields.take(4) as u8,
        loaded: fields.take(rule.time_bits),
        tipped: fields.take(rule.time_bits),
        gross: fields.take(20),
        tare: fields.take(20),
    };
    let spare = fields.take(rule.spare_bits);
    if !ticket.is_valid() || spare != 0 {
        return Err(number::UNPACK);
    }
    Ok(ticket)
}

/// Packs a head at the start of `out`; answers 9, or 3, or 6.
pub fn pack_head(head: &Head, out: &mut [u8]) -> Result<usize, u8> {
    if !head.is_valid() {
        return Err(number::HEAD);
    }
    let packed = pack_fields(&[(head.device, 32), (head.shift, 20), (head.sheet, 20)]);
    write(&packed, out)
}

/// Unpacks a head; answers 2 if there are not 9 bytes, 3 if a field is outside its range.
pub fn unpack_head(bytes: &[u8]) -> Result<Head, u8> {
    if bytes.len() != HEAD_BYTES {
        return Err(number::LENGTH);
    }
    let mut fields = Fields::new(bytes);
    let head = Head {
        device: fields.take(32),
        shift: fields.take(20),
        sheet: fields.take(20),
    };
    if !head.is_valid() {
        return Err(number::HEAD);
    }
    Ok(head)
}

/// Writes `packed` at the start of `out`, or answers 6.
fn write(packed: &[u8], out: &mut [u8]) -> Result<usize, u8> {
    if out.len() < packed.len() {
        return Err(number::OUTPUT);
    }
    out[..packed.len()].copy_from_slice(packed);
    Ok(packed.len())
}

/// The bytes that fields of these values and widths fill, the most significant bit first.
fn pack_fields(fields: &[(u32, u32)]) -> Vec<u8> {
    let mut bits = Vec::new();
    for &(value, width) in fields {
        for weight in (0..width).rev() {
            bits.push((value >> weight) & 1 == 1);
        }
    }
    bits.chunks(8)
        .map(|eight| eight.iter().fold(0, |byte, &bit| byte << 1 | u8::from(bit)))
        .collect()
}

/// Reads fields from packed bytes, one after the other.
struct Fields<'a> {
    bytes: &'a [u8],
    next_bit: u32,
}

impl Fields<'_> {
    fn new(bytes: &[u8]) -> Fields<'_> {
        Fields { bytes, next_bit: 0 }
    }

    /// The value of the next `width` bits.
    fn take(&mut self, width: u32) -> u32 {
        let mut value = 0;
        for place in self.next_bit..self.next_bit + width {
            let bit = self.bytes[place as usize / 8] >> (7 - place % 8) & 1;
            value = value << 1 | u32::from(bit);
        }
        self.next_bit += width;
        value
    }
}

#[cfg(test)]
mod tests {
    use super::*;
    use crate::testing::{XorShift, TICKET};

    /// Document 01, case (i).
    const HEAD: Head = Head {
        device: 7,
        shift: 2,
        sheet: 1,
    };

    /// The bytes of a ticket that may break the rule, times in 17 bits for form 2 and in 16 for any
    /// other; nothing if a field has more than its width.
    fn pack_anyway(t: &Ticket) -> Option<[u8; 13]> {
        let (time, spare) = if t.form == 2 { (17, 0) } else { (16, 2) };
        let mut all: u128 = 0;
        for (value, width) in [
            (t.form.into(), 4),
            (t.truck.into(), 10),
            (t.shovel.into(), 6),
            (t.tip.into(), 6),
            (t.grade.into(), 4),
            (t.loaded, time),
            (t.tipped, time),
            (t.gross, 20),
            (t.tare, 20),
            (0, spare),
        ] {
            if value >= 1 << width {
                return None;
            }
            all = all << width | u128::from(value);
        }
        Some(all.to_be_bytes()[3..].try_into().unwrap())
    }

    #[test]
    fn tickets_there_and_back() {
        let mut random = XorShift::new(41);
        let (mut empty_trips, mut form_2, mut late) = (0, 0, 0);
        for _ in 0..2_000 {
            let ticket = random.ticket();
            assert!(ticket.is_valid());
            assert_eq!(ticket.tare + ticket.net(), ticket.gross);
            empty_trips += u32::from(ticket.tare == ticket.gross);
            form_2 += u32::from(ticket.form == 2);
            late += u32::from(ticket.tipped > 43_199);
            let mut out = [0xAA; 15];
            assert_eq!(pack(&ticket, &mut out), Ok(13));
            assert_eq!(out[13..], [0xAA; 2]);
            let packed: [u8; 13] = out[..13].try_into().unwrap();
            assert_eq!(unpack(&packed), Ok(ticket));
            assert_eq!(pack_anyway(&ticket), Some(packed));

            // The same with as much tare as gross, and with a kilogram more.
            let [equal, above] =
                [ticket.gross, ticket.gross + 1].map(|tare| Ticket { tare, ..ticket });
            assert_eq!(unpack(&pack_anyway(&equal).unwrap()), Ok(equal));
            assert_eq!(pack(&above, &mut out), Err(4));
            if let Some(bytes) = pack_anyway(&above) {
                assert_eq!(unpack(&bytes), Err(8));
            }
        }
        assert!(empty_trips > 150);
        assert!((800..1_200).contains(&form_2));
        assert!((400..600).contains(&late));
    }

    /// Times at the edges, in forms that are none too: packed where the rule holds, else 4; and 8
    /// where the bytes can be made all the same.
    #[test]
    fn tickets_at_the_edges() {
        let mut random = XorShift::new(44);
        let (mut good, mut bad_bytes) = ([0; 3], [0; 16]);
        for _ in 0..20_000 {
            let ticket = random.edge_ticket();
            let in_time = match ticket.form {
                1 => ticket.loaded < 43_200 && ticket.tipped < 43_200,
                2 => ticket.loaded < 86_400 && ticket.tipped < 86_400,
                _ => false,
            };
            let in_turn = ticket.loaded <= ticket.tipped;
            let valid = in_time && in_turn && ticket.truck > 0 && ticket.tare <= ticket.gross;
            assert_eq!(ticket.is_valid(), valid);
            let mut out = [0xAA; 13];
            if valid {
                assert_eq!(pack(&ticket, &mut out), Ok(13));
                assert_eq!(pack_anyway(&ticket), Some(out));
                assert_eq!(unpack(&out), Ok(ticket));
                good[usize::from(ticket.form)] += 1;
            } else {
                assert_eq!(pack(&ticket, &mut out), Err(4));
                assert_eq!(out, [0xAA; 13]);
                if let Some(bytes) = pack_anyway(&ticket) {
                    assert_eq!(unpack(&bytes), Err(8));
                    bad_bytes[usize::from(ticket.form)] += 1;
                }
            }
        }
        assert!(good[1] > 200 && good[2] > 1_000);
        assert!([0, 1, 2, 3, 15].iter().all(|&form| bad_bytes[form] > 200));
    }

    #[test]
    fn bytes_that_unpack_pack_to_themselves() {
        let mut random = XorShift::new(42);
        for form in [1, 2] {
            let mut packed = [0; 13];
            pack(&Ticket { form, ..TICKET }, &mut packed).unwrap();
            let mut good = 0;
            for _ in 0..20_000 {
                let mut bytes = packed;
                for _ in 0..random.below(4) {
                    bytes[random.below(13)] ^= 1 << random.below(8);
                }
                if let Ok(ticket) = unpack(&bytes) {
                    let mut again = [0; 13];
                    assert_eq!(pack(&ticket, &mut again), Ok(13));
                    assert_eq!(again, bytes);
                    good += 1;
                }
            }
            assert!(good > 5_000 && good < 20_000);
        }
    }

    /// What must hold of a ticket that is at the edge of a rule, just inside or just outside.
    fn edge(inside: Ticket, outside: Ticket) {
        let mut out = [0xAA; 13];
        assert!(inside.is_valid(), "{inside:?}");
        assert_eq!(pack(&inside, &mut out), Ok(13));
        assert_eq!(unpack(&out), Ok(inside));
        let mut out = [0xAA; 13];
        assert!(!outside.is_valid(), "{outside:?}");
        assert_eq!(pack(&outside, &mut out), Err(4));
        // 4 wins over 6.
        assert_eq!(pack(&outside, &mut []), Err(4));
        assert_eq!(out, [0xAA; 13]);
    }

    #[test]
    fn edges_of_the_ticket_rules() {
        let t = TICKET;
        edges_in_form(t);
        edges_in_form(Ticket { form: 2, ..t });
        edge(Ticket { form: 1, ..t }, Ticket { form: 0, ..t });
        edge(Ticket { form: 2, ..t }, Ticket { form: 3, ..t });
        // The last second of a shift, and where a seventeenth or eighteenth bit is needed.
        let times = |form, loaded, tipped| Ticket {
            form,
            loaded,
            tipped,
            ..t
        };
        edge(times(1, 0, 43_199), times(1, 0, 43_200));
        edge(times(1, 43_199, 43_199), times(1, 43_200, 43_200));
        edge(times(1, 43_199, 43_199), times(1, 43_200, 43_199));
        edge(times(2, 0, 43_200), times(1, 0, 65_535));
        edge(times(2, 0, 65_535), times(1, 0, 65_536));
        edge(times(2, 0, 65_536), times(1, 0, 65_536 + 4_200));
        edge(times(2, 65_535, 65_536), times(2, 65_536, 65_535));
        edge(times(2, 65_536, 65_536), times(2, 65_537, 65_536));
        edge(times(2, 0, 86_399), times(2, 0, 86_400));
        edge(times(2, 86_399, 86_399), times(2, 86_400, 86_400));
        edge(times(2, 86_399, 86_399), times(2, 86_400, 86_399));
        edge(times(2, 0, 0), times(2, 0, 131_071));
        edge(times(2, 0, 4_200), times(2, 0, 131_072 + 4_200));
    }

    /// The edges that are the same in either form.
    fn edges_in_form(t: Ticket) {
        for form in [0, 3, 4, 15, 16, 17, 18, 255] {
            edge(t, Ticket { form, ..t });
        }
        edge(Ticket { truck: 1, ..t }, Ticket { truck: 0, ..t });
        edge(Ticket { truck: 1_023, ..t }, Ticket { truck: 1_024, ..t });
        edge(Ticket { shovel: 1, ..t }, Ticket { shovel: 0, ..t });
        edge(Ticket { shovel: 63, ..t }, Ticket { shovel: 64, ..t });
        edge(Ticket { tip: 1, ..t }, Ticket { tip: 0, ..t });
        edge(Ticket { tip: 63, ..t }, Ticket { tip: 64, ..t });
        edge(Ticket { grade: 0, ..t }, Ticket { grade: 10, ..t });
        edge(Ticket { grade: 9, ..t }, Ticket { grade: 16, ..t });
        edge(Ticket { loaded: 0, ..t }, Ticket { loaded: 4_201, ..t });
        edge(Ticket { tipped: 3_600, ..t }, Ticket { tipped: 3_599, ..t });
        edge(
            Ticket {
                gross: 1_048_575,
                ..t
            },
            Ticket {
                gross: 1_048_576,
                ..t
            },
        );
        edge(Ticket { tare: 0, ..t }, Ticket { tare: 250_001, ..t });
        // Tare equal to gross, and one above it.
        for gross in [0, 1, 5, 110_000, 250_000, 1_048_574, 1_048_575] {
            let empty = Ticket {
                gross,
                tare: gross,
                ..t
            };
            let above = Ticket {
                tare: gross + 1,
                ..empty
            };
            edge(empty, above);
            assert_eq!(empty.net(), 0);
        }
    }

    /// The bytes of tickets with tare equal to gross; with a tare one above it they do not unpack.
    #[test]
    fn packed_trips_back_empty() {
        for (gross, last) in [
            (250_000, [0xA0, 0xF4, 0x24, 0x0F, 0x42, 0x40]),
            (5, [0xA0, 0x00, 0x01, 0x40, 0x00, 0x14]),
            (0, [0xA0, 0x00, 0x00, 0x00, 0x00, 0x00]),
            (1_048_575, [0xA3, 0xFF, 0xFF, 0xFF, 0xFF, 0xFC]),
        ] {
            let ticket = Ticket {
                gross,
                tare: gross,
                ..TICKET
            };
            let mut out = [0; 13];
            assert_eq!(pack(&ticket, &mut out), Ok(13));
            assert_eq!(out[..7], [0x10, 0x14, 0x20, 0xD0, 0x38, 0x40, 0x41]);
            assert_eq!(out[7..], last);
            assert_eq!(unpack(&out), Ok(ticket));
            let above = Ticket {
                tare: gross + 1,
                ..ticket
            };
            if let Some(bytes) = pack_anyway(&above) {
                assert_eq!(unpack(&bytes), Err(8));
            }
        }
    }

    #[test]
    fn other_refusals_of_tickets() {
        let mut out = [0xAA; 12];
        assert_eq!(pack(&TICKET, &mut out), Err(6));
        assert_eq!(out, [0xAA; 12]);

        let mut packed = [0; 13];
        pack(&TICKET, &mut packed).unwrap();
        for length in (0..30).filter(|&length| length != 13) {
            assert_eq!(unpack(&vec![0; length]), Err(2));
        }
        for spare in 1..4 {
            let mut bytes = packed;
            bytes[12] |= spare;
            assert_eq!(unpack(&bytes), Err(8));
        }
        assert_eq!(unpack(&[0; 13]), Err(8));
        assert_eq!(unpack(&[0xFF; 13]), Err(8));
        // Any other form in place of form 1. In form 2 the bits that follow are other values.
        for form in 0..16 {
            let mut bytes = packed;
            bytes[0] = form << 4;
            let expected = match form {
                1 => Ok(TICKET),
                2 => Ok(Ticket {
                    form: 2,
                    loaded: 7_200,
                    tipped: 16_800,
                    gross: 1_000_000,
                    tare: 440_000,
                    ..TICKET
                }),
                _ => Err(8),
            };
            assert_eq!(unpack(&bytes), expected);
        }
        // The same with form 2's bytes: in form 1 the ticket would be loaded after it is tipped.
        let form_2 = Ticket { form: 2, ..TICKET };
        pack(&form_2, &mut packed).unwrap();
        for form in 0..16 {
            let mut bytes = packed;
            bytes[0] = form << 4;
            let expected = if form == 2 { Ok(form_2) } else { Err(8) };
            assert_eq!(unpack(&bytes), expected);
        }
    }

    /// In form 2 the last two bits are tare's, where form 1 has spare ones.
    #[test]
    fn form_2_has_no_spare_bits() {
        let ticket = Ticket { form: 2, ..TICKET };
        let mut packed = [0; 13];
        pack(&ticket, &mut packed).unwrap();
        for more in 0..4 {
            let mut bytes = packed;
            bytes[12] |= more;
            let tare = TICKET.tare + u32::from(more);
            assert_eq!(unpack(&bytes), Ok(Ticket { tare, ..ticket }));
        }
    }

    #[test]
    fn heads_there_and_back() {
        let mut random = XorShift::new(43);
        for _ in 0..2_000 {
            let head = Head {
                device: random.between(1, u32::MAX),
                shift: random.between(1, 1_000_000),
                sheet: random.between(1, 1_000_000),
            };
            let mut out = [0xAA; 11];
            assert_eq!(pack_head(&head, &mut out), Ok(9));
            assert_eq!(out[9..], [0xAA; 2]);
            assert_eq!(unpack_head(&out[..9]), Ok(head));
        }
    }

    #[test]
    fn refusals_of_heads() {
        let h = HEAD;
        for wrong in [
            Head { device: 0, ..h },
            Head { shift: 0, ..h },
            Head {
                shift: 1_000_001,
                ..h
            },
            Head {
                shift: 1 << 20 | 1,
                ..h
            },
            Head { sheet: 0, ..h },
            Head {
                sheet: 1_000_001,
                ..h
            },
            Head {
                sheet: u32::MAX,
                ..h
            },
        ] {
            assert!(!wrong.is_valid());
            let mut out = [0xAA; 9];
            assert_eq!(pack_head(&wrong, &mut out), Err(3));
            assert_eq!(pack_head(&wrong, &mut []), Err(3));
            assert_eq!(out, [0xAA; 9]);
        }
        let mut out = [0xAA; 8];
        assert_eq!(pack_head(&h, &mut out), Err(6));
        assert_eq!(out, [0xAA; 8]);
        for length in (0..20).filter(|&length| length != 9) {
            assert_eq!(unpack_head(&vec![0; length]), Err(2));
        }
        assert_eq!(unpack_head(&[0; 9]), Err(3));
        assert_eq!(unpack_head(&[0xFF; 9]), Err(3));
    }
}
