//! Listings.

use haul_tape::{listing, listing_to_string, Head, Ticket};
use haul_tape_differential::both;
use haul_tape_differential::calls::write_tape;
use haul_tape_differential::kit::{pack_anyway, sealed};
use haul_tape_differential::random::{tare_above_gross, turned, Random};

/// A tape of these tickets, some of which break the rule, is listed with number 8.
fn is_refused(key: &[u8; 16], head: Head, tickets: &[Ticket]) {
    let plain: Vec<u8> = tickets
        .iter()
        .flat_map(|&t| pack_anyway(t))
        .flatten()
        .collect();
    let tape = sealed(key, head.pack().unwrap(), &plain);
    assert_eq!(both::listing(key, &tape), b"REFUSED 8\n");
}

#[test]
fn random_tapes() {
    let mut random = Random::for_test();
    for tickets in 0..=40 {
        let (key, head) = (random.block(), random.head());
        let tickets: Vec<Ticket> = (0..tickets).map(|_| random.ticket()).collect();
        let tape = write_tape(&key, head, &tickets);
        let text = both::listing(&key, &tape);
        assert!(text.starts_with(b"TAPE "));
        assert_eq!(listing_to_string(&key, &tape).into_bytes(), text);
        let mut out = [0; 9];
        assert_eq!(
            listing(&key, &tape, &mut out).map_err(|refusal| refusal.number()),
            Err(6)
        );

        let bit = random.below(8 * tape.len());
        both::listing(&key, &turned(&tape, bit));
        both::listing(&key, &tape[..random.below(tape.len())]);
    }
}

/// Small numbers and great ones in every column.
#[test]
fn widths_of_numbers() {
    let mut random = Random::for_test();
    let smallest = Ticket {
        form: 1,
        truck: 1,
        shovel: 1,
        tip: 1,
        grade: 0,
        loaded: 0,
        tipped: 0,
        gross: 1,
        tare: 0,
    };
    let greatest = Ticket {
        form: 1,
        truck: 1_023,
        shovel: 63,
        tip: 63,
        grade: 9,
        loaded: 43_199,
        tipped: 43_199,
        gross: 1_048_575,
        tare: 0,
    };
    let day = Ticket {
        form: 2,
        loaded: 86_399,
        tipped: 86_399,
        ..greatest
    };
    for number in [1_u32, 9, 10, 99, 100, 999_999, 1_000_000] {
        let key = random.block();
        let head = Head {
            device: 4_294 * number,
            shift: number,
            sheet: 1_000_001 - number,
        };
        let nothing = Ticket {
            gross: 0,
            ..smallest
        };
        let tape = write_tape(&key, head, &[smallest, nothing, greatest, day, smallest]);
        both::listing(&key, &tape);
    }
}

/// Lines with net 0, and the total of the others; a tare above the gross is 8.
#[test]
fn trips_back_empty() {
    let mut random = Random::for_test();
    for _ in 0..200 {
        let (key, head) = (random.block(), random.head());
        let mut tickets: Vec<Ticket> = (0..4).map(|_| random.ticket_with_load()).collect();
        let total: u32 = tickets.iter().map(|t| t.gross - t.tare).sum();
        let (place, t) = (random.below(5), random.empty_trip());
        tickets.insert(place, t);
        let text = both::listing(&key, &write_tape(&key, head, &tickets));
        let text = String::from_utf8(text).unwrap();
        let lines: Vec<&str> = text.lines().collect();
        let fields = [
            place as u32 + 1,
            t.truck.into(),
            t.shovel.into(),
            t.tip.into(),
            t.grade.into(),
            t.loaded,
            t.tipped,
            0,
        ];
        assert_eq!(lines[place + 1], fields.map(|n| n.to_string()).join(" "));
        assert_eq!(lines[6..], [format!("TOTAL 5 {total}")]);

        tickets[place] = tare_above_gross(t);
        is_refused(&key, head, &tickets);
    }
}

/// The form is not shown: a ticket has the same line in either.
#[test]
fn both_forms() {
    let mut random = Random::for_test();
    for _ in 0..200 {
        let (key, head) = (random.block(), random.head());
        let tickets: Vec<Ticket> = (0..6).map(|_| random.ticket()).collect();
        let text = both::listing(&key, &write_tape(&key, head, &tickets));
        for form in [1, 2] {
            let moved: Vec<Ticket> = tickets
                .iter()
                .map(|&t| both::move_ticket(t, form).unwrap_or(t))
                .collect();
            let moved = both::listing(&key, &write_tape(&key, head, &moved));
            both::same_bytes("the listing of moved tickets", &moved, &text);
        }
        for wrong in [
            Ticket {
                form: 3,
                ..random.ticket_of_form(1)
            },
            Ticket {
                tipped: 86_400,
                ..random.ticket_of_form(2)
            },
        ] {
            let mut tickets = tickets.clone();
            tickets[random.below(6)] = wrong;
            is_refused(&key, head, &tickets);
        }
    }
}

/// Every number has as many digits as it may, in either form, and the listing fits.
#[test]
fn the_longest_listing() {
    let mut random = Random::for_test();
    let key = random.block();
    let head = Head {
        device: u32::MAX,
        shift: 1_000_000,
        sheet: 1_000_000,
    };
    let day = Ticket {
        form: 2,
        truck: 1_023,
        shovel: 63,
        tip: 63,
        grade: 9,
        loaded: 86_399,
        tipped: 86_399,
        gross: 1_048_575,
        tare: 0,
    };
    let half_a_day = Ticket {
        form: 1,
        loaded: 43_199,
        tipped: 43_199,
        ..day
    };
    for tickets in [[day, day], [day, half_a_day], [half_a_day, half_a_day]] {
        let tape = write_tape(&key, head, &tickets.repeat(2_500));
        let text = both::listing(&key, &tape);
        assert_eq!(text.len(), 188_947);
        assert!(text.len() <= haul_tape::MOST_LISTING_BYTES);
    }
}

#[test]
fn the_longest_tape() {
    let mut random = Random::for_test();
    let (key, head) = (random.block(), random.head());
    let tickets: Vec<Ticket> = (0..5_000).map(|_| random.ticket()).collect();
    let tape = write_tape(&key, head, &tickets);
    let text = both::listing(&key, &tape);
    assert_eq!(text.iter().filter(|&&byte| byte == b'\n').count(), 5_002);
}

#[test]
fn refused_tapes() {
    let mut random = Random::for_test();
    for _ in 0..200 {
        let key_bytes = random.pick(&[16, 16, 16, 0, 15, 17]);
        let key = random.bytes(key_bytes);
        let length = random.pick(&[0, 24, 25, 26, 37, 38, 51, 65_025, 65_038]);
        let mut tape = random.bytes(length);
        if length >= 9 && random.once_in(2) {
            tape[..9].copy_from_slice(&random.head().pack().unwrap());
        }
        let text = both::listing(&key, &tape);
        assert!(text.starts_with(b"REFUSED "));
    }
}
