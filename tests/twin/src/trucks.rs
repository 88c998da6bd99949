//! Trucks out on the shift: the different trucks on opened tapes (document 02, P1).
//!
//! An opened tape is its plain bytes, 13 for each ticket.

use crate::number;
use crate::tape::tickets_in;
use crate::ticket::{self, TICKET_BYTES};
use std::collections::BTreeSet;

/// How many different trucks are on both of two tapes, on either and on just one.
#[derive(Clone, Copy, PartialEq, Eq, Debug)]
pub struct TruckCounts {
    pub both: usize,
    pub either: usize,
    pub just_one: usize,
}

/// How many different trucks are on an opened tape; answers 2 if the length is not 13n with n at
/// most 5,000, 8 if a ticket does not unpack.
pub fn trucks(plain: &[u8]) -> Result<usize, u8> {
    Ok(truck_list(plain)?.len())
}

/// The trucks on an opened tape, each once, the smallest number first; refused as [`trucks`].
pub fn truck_list(plain: &[u8]) -> Result<Vec<u16>, u8> {
    check_length(plain)?;
    Ok(truck_set(plain)?.into_iter().collect())
}

/// The trucks on two opened tapes; answers 2 or 8 if one of them is refused, and the smaller number
/// if both are.
pub fn trucks_of_two(first: &[u8], second: &[u8]) -> Result<TruckCounts, u8> {
    // 2 is tried on both tapes before 8 is tried on either.
    check_length(first)?;
    check_length(second)?;
    let first = truck_set(first)?;
    let second = truck_set(second)?;
    Ok(TruckCounts {
        both: first.intersection(&second).count(),
        either: first.union(&second).count(),
        just_one: first.symmetric_difference(&second).count(),
    })
}

/// Answers 2 if the bytes are not those of 0 to 5,000 tickets.
fn check_length(plain: &[u8]) -> Result<(), u8> {
    match tickets_in(plain.len()) {
        Some(_) => Ok(()),
        None => Err(number::LENGTH),
    }
}

/// The trucks of all tickets; answers 8 if one does not unpack.
fn truck_set(plain: &[u8]) -> Result<BTreeSet<u16>, u8> {
    plain
        .chunks(TICKET_BYTES)
        .map(|packed| Ok(ticket::unpack(packed)?.truck))
        .collect()
}

#[cfg(test)]
mod tests {
    use super::*;
    use crate::testing::{XorShift, TICKET};
    use crate::ticket::Ticket;

    /// Tickets that do not unpack: form 15, truck 0, grade 15, a spare bit, 13 zero bytes, a tare one
    /// above the gross, form 3, and form 2 with truck 0 and with tipped 86,400.
    const BAD: [[u8; 13]; 9] = [
        [
            0xF0, 0x14, 0x20, 0xD0, 0x38, 0x40, 0x41, 0xA0, 0xF4, 0x24, 0x06, 0xB6, 0xC0,
        ],
        [
            0x10, 0x00, 0x20, 0xD0, 0x38, 0x40, 0x41, 0xA0, 0xF4, 0x24, 0x06, 0xB6, 0xC0,
        ],
        [
            0x10, 0x14, 0x20, 0xFC, 0x38, 0x40, 0x41, 0xA0, 0xF4, 0x24, 0x06, 0xB6, 0xC0,
        ],
        [
            0x10, 0x14, 0x20, 0xD0, 0x38, 0x40, 0x41, 0xA0, 0xF4, 0x24, 0x06, 0xB6, 0xC1,
        ],
        [0; 13],
        [
            0x10, 0x14, 0x20, 0xD0, 0x38, 0x40, 0x41, 0xA0, 0xF4, 0x24, 0x0F, 0x42, 0x44,
        ],
        [
            0x30, 0x14, 0x20, 0xD0, 0x38, 0x40, 0x41, 0xA0, 0xF4, 0x24, 0x06, 0xB6, 0xC0,
        ],
        [
            0x20, 0x00, 0x20, 0xD0, 0x1C, 0x20, 0x10, 0x68, 0x3D, 0x09, 0x01, 0xAD, 0xB0,
        ],
        [
            0x20, 0x14, 0x20, 0xD0, 0x1C, 0x21, 0x51, 0x80, 0x3D, 0x09, 0x01, 0xAD, 0xB0,
        ],
    ];

    fn packed(ticket: &Ticket) -> [u8; 13] {
        let mut packed = [0; 13];
        ticket::pack(ticket, &mut packed).unwrap();
        packed
    }

    /// An opened tape with a ticket for each of these trucks, in turn.
    fn tape(trucks: &[u16]) -> Vec<u8> {
        trucks
            .iter()
            .flat_map(|&truck| packed(&Ticket { truck, ..TICKET }))
            .collect()
    }

    fn counts(both: usize, either: usize, just_one: usize) -> Result<TruckCounts, u8> {
        Ok(TruckCounts {
            both,
            either,
            just_one,
        })
    }

    #[test]
    fn no_tickets() {
        assert_eq!(trucks(&[]), Ok(0));
        assert_eq!(truck_list(&[]), Ok(vec![]));
        assert_eq!(trucks_of_two(&[], &[]), counts(0, 0, 0));
        assert_eq!(trucks_of_two(&tape(&[5]), &[]), counts(0, 1, 1));
        assert_eq!(trucks_of_two(&[], &tape(&[5, 6])), counts(0, 2, 2));
    }

    #[test]
    fn each_truck_once() {
        for (on_tape, list) in [
            (&[5][..], &[5][..]),
            (&[5, 5, 5], &[5]),
            (&[7, 5, 7, 5, 5], &[5, 7]),
            (&[1_023, 1, 64, 63], &[1, 63, 64, 1_023]),
            (&[128, 127, 128, 127, 1], &[1, 127, 128]),
        ] {
            assert_eq!(truck_list(&tape(on_tape)), Ok(list.to_vec()));
            assert_eq!(trucks(&tape(on_tape)), Ok(list.len()));
        }
        let all: Vec<u16> = (1..=1_023).collect();
        assert_eq!(truck_list(&tape(&all)), Ok(all.clone()));
        assert_eq!(trucks(&tape(&all)), Ok(1_023));
        for truck in all {
            assert_eq!(truck_list(&tape(&[truck])), Ok(vec![truck]));
        }
    }

    /// Two tickets of one truck that have no other value in common.
    #[test]
    fn other_fields_do_not_matter() {
        let other = Ticket {
            shovel: 63,
            tip: 1,
            grade: 9,
            loaded: 0,
            tipped: 43_199,
            gross: 1_048_575,
            tare: 0,
            ..TICKET
        };
        let plain = [packed(&TICKET), packed(&other)].concat();
        assert_eq!(truck_list(&plain), Ok(vec![5]));
    }

    /// A truck is counted once, whichever forms its tickets are of.
    #[test]
    fn both_forms() {
        let late = |truck| Ticket {
            form: 2,
            truck,
            tipped: 86_399,
            ..TICKET
        };
        let plain = [TICKET, late(5), late(1_023), late(6), TICKET].map(|t| packed(&t));
        assert_eq!(truck_list(&plain.concat()), Ok(vec![5, 6, 1_023]));
        assert_eq!(trucks(&plain.concat()), Ok(3));
        assert_eq!(trucks_of_two(&plain[0], &plain[1]), counts(1, 1, 0));
        assert_eq!(
            trucks_of_two(&plain[..2].concat(), &plain[2..].concat()),
            counts(1, 3, 2)
        );
    }

    /// A truck is counted even where all its tickets are trips back empty.
    #[test]
    fn trips_back_empty() {
        let empty = |truck, gross| Ticket {
            truck,
            gross,
            tare: gross,
            ..TICKET
        };
        let plain = [TICKET, empty(6, 250_000), empty(5, 0), empty(7, 0)].map(|t| packed(&t));
        assert_eq!(truck_list(&plain.concat()), Ok(vec![5, 6, 7]));
        assert_eq!(
            trucks_of_two(&plain[0], &plain[1..].concat()),
            counts(1, 3, 2)
        );
    }

    #[test]
    fn wrong_lengths() {
        let plain = tape(&[5; 5_002]);
        for length in [1, 12, 14, 25, 27, 64_999, 65_001, 65_013, 65_026] {
            assert_eq!(trucks(&plain[..length]), Err(2));
            assert_eq!(truck_list(&plain[..length]), Err(2));
            assert_eq!(trucks_of_two(&plain[..length], &plain[..13]), Err(2));
            assert_eq!(trucks_of_two(&plain[..13], &plain[..length]), Err(2));
        }
        for length in [13, 26, 64_987, 65_000] {
            assert_eq!(trucks(&plain[..length]), Ok(1));
        }
        // 2 wins over 8.
        assert_eq!(trucks(&vec![0; 65_013]), Err(2));
        assert_eq!(trucks(&[0; 25]), Err(2));
    }

    #[test]
    fn a_ticket_that_does_not_unpack() {
        for bad in BAD {
            assert_eq!(trucks(&bad), Err(8));
            for place in 0..3 {
                let mut plain = tape(&[1, 2, 3]);
                plain[13 * place..][..13].copy_from_slice(&bad);
                assert_eq!(trucks(&plain), Err(8));
                assert_eq!(truck_list(&plain), Err(8));
                assert_eq!(trucks_of_two(&plain, &tape(&[1])), Err(8));
                assert_eq!(trucks_of_two(&tape(&[1]), &plain), Err(8));
            }
        }
        let mut plain = tape(&[5; 5_000]);
        plain[64_999] |= 1;
        assert_eq!(trucks(&plain), Err(8));
    }

    #[test]
    fn two_tapes() {
        for (first, second, expected) in [
            (&[5][..], &[5][..], counts(1, 1, 0)),
            (&[5], &[6], counts(0, 2, 2)),
            (&[5, 6, 5], &[6, 7, 7], counts(1, 3, 2)),
            (&[1, 63, 64, 1_023], &[1_023, 64], counts(2, 4, 2)),
            (&[1, 2, 3], &[3, 2, 1, 1], counts(3, 3, 0)),
        ] {
            assert_eq!(trucks_of_two(&tape(first), &tape(second)), expected);
            assert_eq!(trucks_of_two(&tape(second), &tape(first)), expected);
        }
        let all: Vec<u16> = (1..=1_023).collect();
        let (low, high) = all.split_at(511);
        assert_eq!(
            trucks_of_two(&tape(low), &tape(high)),
            counts(0, 1023, 1023)
        );
        assert_eq!(
            trucks_of_two(&tape(&all), &tape(low)),
            counts(511, 1023, 512)
        );
        assert_eq!(
            trucks_of_two(&tape(&all), &tape(&all)),
            counts(1023, 1023, 0)
        );
    }

    /// Of two refused tapes the smaller number is given, whichever is the first.
    #[test]
    fn refusals_of_two_tapes() {
        let good = tape(&[5, 6]);
        let length = &good[..25];
        let bad = [good.clone(), BAD[3].to_vec()].concat();
        // 5,001 tickets that do not unpack.
        let both_wrong = BAD[4].repeat(5_001);
        for (first, second, number) in [
            (&good[..], length, 2),
            (&good, &bad, 8),
            (&good, &both_wrong, 2),
            (length, length, 2),
            (length, &bad, 2),
            (length, &both_wrong, 2),
            (&bad, &bad, 8),
            (&bad, &both_wrong, 2),
            (&both_wrong, &both_wrong, 2),
        ] {
            assert_eq!(trucks_of_two(first, second), Err(number));
            assert_eq!(trucks_of_two(second, first), Err(number));
        }
    }

    /// Trucks drawn from a narrow or a wide range, against marks in a row of 1,024; the sums; and the
    /// same trucks in another order.
    #[test]
    fn random_tapes() {
        let mut random = XorShift::new(61);
        for _ in 0..300 {
            let (mut tapes, mut marks) = ([vec![], vec![]], [[false; 1_024]; 2]);
            for (tape, marks) in tapes.iter_mut().zip(&mut marks) {
                let most = [3, 70, 1_023][random.below(3)];
                for _ in 0..random.below(200) {
                    let truck = random.between(1, most);
                    tape.push(truck as u16);
                    marks[truck as usize] = true;
                }
            }
            let [first, second] = tapes.each_ref().map(|trucks| tape(trucks));
            let own = marks.map(|marks| marks.iter().filter(|&&mark| mark).count());
            assert_eq!([trucks(&first), trucks(&second)], own.map(Ok));

            let of_two = trucks_of_two(&first, &second).unwrap();
            let places = || marks[0].iter().zip(&marks[1]);
            assert_eq!(of_two.both, places().filter(|(&a, &b)| a && b).count());
            assert_eq!(of_two.either, places().filter(|(&a, &b)| a || b).count());
            assert_eq!(of_two.just_one, places().filter(|(a, b)| a != b).count());
            assert_eq!(of_two.either + of_two.both, own[0] + own[1]);
            assert_eq!(of_two.just_one + of_two.both, of_two.either);
            assert_eq!(trucks_of_two(&second, &first), Ok(of_two));

            let mut turned_round = tapes[0].clone();
            turned_round.reverse();
            assert_eq!(truck_list(&tape(&turned_round)), truck_list(&first));
        }
    }
}
