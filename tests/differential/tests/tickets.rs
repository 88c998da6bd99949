//! Packing and unpacking of tickets and heads, and tickets moved from one form to the other.

use haul_tape::{Head, Ticket};
use haul_tape_differential::both;
use haul_tape_differential::kit::pack_anyway;
use haul_tape_differential::random::{last_second, turned, Random};

/// Packs the ticket into outputs of several lengths; unpacks what was written.
fn try_ticket(ticket: Ticket) -> Result<Vec<u8>, u8> {
    for room in [0, 12, 14, 30] {
        both::pack_ticket(ticket, room);
    }
    let ran = both::pack_ticket(ticket, 13);
    assert_eq!(
        ticket
            .pack()
            .map(Vec::from)
            .map_err(|refusal| refusal.number()),
        ran.answer.map(|_| ran.out.clone())
    );
    ran.answer?;
    assert_eq!(both::unpack_ticket(&ran.out), Ok(ticket));
    assert_eq!(Ticket::unpack(&ran.out), Ok(ticket));
    Ok(ran.out)
}

/// As `try_ticket`, for a head.
fn try_head(head: Head) -> Result<Vec<u8>, u8> {
    for room in [0, 8, 10, 30] {
        both::pack_head(head, room);
    }
    let ran = both::pack_head(head, 9);
    assert_eq!(
        head.pack()
            .map(Vec::from)
            .map_err(|refusal| refusal.number()),
        ran.answer.map(|_| ran.out.clone())
    );
    ran.answer?;
    assert_eq!(both::unpack_head(&ran.out), Ok(head));
    assert_eq!(Head::unpack(&ran.out), Ok(head));
    Ok(ran.out)
}

#[test]
fn tickets() {
    let mut random = Random::for_test();
    let (mut refused, mut empty, mut above) = (0, 0, 0);
    let (mut form_2, mut late) = (0, 0);
    for _ in 0..20_000 {
        let ticket = random.ticket();
        empty += u32::from(ticket.tare == ticket.gross);
        form_2 += u32::from(ticket.form == 2);
        late += u32::from(ticket.tipped > 43_199);
        let packed = try_ticket(ticket).expect("the ticket is valid");
        // Bytes that are one bit from a ticket's; many are another ticket's.
        let other = turned(&packed, random.below(104));
        if let Ok(ticket) = both::unpack_ticket(&other) {
            assert_eq!(try_ticket(ticket), Ok(other));
        }
        let ticket = random.edge_ticket();
        above += u32::from(ticket.tare.checked_sub(1) == Some(ticket.gross));
        refused += u32::from(try_ticket(ticket).is_err());
    }
    println!("refused {refused}; trips back empty {empty}; tare one above gross {above}");
    println!("form 2 {form_2}; too late for form 1 {late}");
    assert!(0 < refused && refused < 20_000);
    assert!(empty > 2_000 && above > 200);
    assert!((9_000..11_000).contains(&form_2) && (4_000..6_000).contains(&late));
}

/// Every ticket of form 1 around its last second and every ticket of form 2 around its own; loaded
/// up to tipped and above it.
#[test]
fn times() {
    let mut random = Random::for_test();
    let edges = [0, 43_199, 65_535, 86_399, 131_071];
    let mut times: Vec<u32> = edges.iter().flat_map(|&t| [t, t + 1, t + 2]).collect();
    times.extend((0..60).map(|_| random.between(0, 140_000)));
    let mut valid = [0; 3];
    for form in [1, 2] {
        for &tipped in &times {
            for &loaded in &times {
                let ticket = Ticket {
                    form,
                    loaded,
                    tipped,
                    ..random.ticket()
                };
                let right = loaded <= tipped && tipped <= last_second(form);
                let packed = try_ticket(ticket);
                assert_eq!(packed.is_ok(), right, "{ticket:?}");
                assert_eq!(both::move_ticket(ticket, form).is_ok(), right);
                match pack_anyway(ticket) {
                    Some(bytes) if right => assert_eq!(packed, Ok(bytes.to_vec())),
                    Some(bytes) => assert_eq!(both::unpack_ticket(&bytes), Err(8)),
                    None => assert!(!right),
                }
                valid[usize::from(form)] += u32::from(right);
            }
        }
    }
    println!("valid, form 1 and form 2: {:?}", &valid[1..]);
    assert!(valid[1] > 20 && valid[2] > valid[1]);
}

/// Every form that a byte can have: 1 and 2 are the ticket's, the others are 4, and 8 where four
/// bits hold them.
#[test]
fn every_form() {
    let mut random = Random::for_test();
    for form in 0..=255 {
        for _ in 0..20 {
            let ticket = random.ticket_of_form(1);
            let ticket = Ticket { form, ..ticket };
            match form {
                1 | 2 => assert!(try_ticket(ticket).is_ok()),
                _ => assert_eq!(try_ticket(ticket), Err(4)),
            }
            if form < 16 && ![1, 2].contains(&form) {
                let mut packed = random.ticket().pack().unwrap();
                packed[0] = packed[0] & 0x0F | form << 4;
                assert_eq!(both::unpack_ticket(&packed), Err(8));
            }
        }
    }
}

/// Valid tickets to their own form, to the other, and back to the same bytes; 11 where they are too
/// late.
#[test]
fn moves() {
    let mut random = Random::for_test();
    let (mut there_and_back, mut too_late) = ([0; 3], 0);
    for _ in 0..20_000 {
        let ticket = random.ticket();
        let other = 3 - ticket.form;
        assert_eq!(both::move_ticket(ticket, ticket.form), Ok(ticket));
        if ticket.tipped > 43_199 {
            assert_eq!(both::move_ticket(ticket, other), Err(11));
            too_late += 1;
            continue;
        }
        let there = both::move_ticket(ticket, other).unwrap();
        let expected = Ticket {
            form: other,
            ..ticket
        };
        assert_eq!(there, expected);
        let there_packed = try_ticket(there).unwrap();
        let back = both::move_ticket(there, ticket.form).unwrap();
        let packed = try_ticket(back);
        assert_eq!(packed, try_ticket(ticket));
        assert_ne!(packed, Ok(there_packed));
        there_and_back[usize::from(ticket.form)] += 1;
    }
    println!("there and back {there_and_back:?}, too late {too_late}");
    assert!(there_and_back[1..].iter().all(|&some| some > 4_000));
    assert!(too_late > 4_000);
}

/// Tickets at and beyond the ends of the ranges, and tickets of any fields, to any form.
#[test]
fn moves_refused() {
    let mut random = Random::for_test();
    let mut answers = [0; 12];
    for _ in 0..40_000 {
        let ticket = random.edge_ticket();
        let right = try_ticket(ticket).is_ok();
        for form in [1, 2, random.word() as u8] {
            let answer = both::move_ticket(ticket, form);
            let known = [1, 2].contains(&form);
            let late = ticket.form == 2 && form == 1 && ticket.tipped > 43_199;
            let expected = match (right && known, late) {
                (false, _) => Err(4),
                (true, true) => Err(11),
                (true, false) => Ok(Ticket { form, ..ticket }),
            };
            assert_eq!(answer, expected, "{ticket:?} to {form}");
            answers[usize::from(answer.err().unwrap_or(0))] += 1;
        }
        let fields = Ticket {
            truck: random.word() as u16,
            gross: random.word() as u32,
            tare: u32::MAX,
            ..ticket
        };
        let form = random.pick(&[1, 2]);
        assert_eq!(both::move_ticket(fields, form), Err(4));
    }
    println!("answers, by number: {answers:?}");
    assert!([0, 4, 11].iter().all(|&number| answers[number] > 1_500));
}

/// Every form asked for.
#[test]
fn every_form_asked_for() {
    let mut random = Random::for_test();
    for form in 0..=255 {
        for _ in 0..40 {
            let ticket = random.ticket();
            let answer = both::move_ticket(ticket, form);
            match form {
                1 if ticket.tipped > 43_199 => assert_eq!(answer, Err(11)),
                1 | 2 => assert_eq!(answer, Ok(Ticket { form, ..ticket })),
                _ => assert_eq!(answer, Err(4)),
            }
            let broken = Ticket { truck: 0, ..ticket };
            assert_eq!(both::move_ticket(broken, form), Err(4));
        }
    }
}

/// Tare equal to gross, and one above it.
#[test]
fn tare_up_to_gross() {
    let mut random = Random::for_test();
    let mut grosses = vec![0, 1, 5, 250_000, 1_048_574, 1_048_575];
    grosses.extend((0..5_000).map(|_| random.between(0, 1_048_575)));
    for gross in grosses {
        let ticket = random.ticket();
        let [equal, above] = [gross, gross + 1].map(|tare| Ticket {
            gross,
            tare,
            ..ticket
        });
        let packed = try_ticket(equal).expect("a trip back empty is a valid ticket");
        assert_eq!(Some(packed), pack_anyway(equal).map(Vec::from));
        assert_eq!(try_ticket(above), Err(4));
        if let Some(packed) = pack_anyway(above) {
            assert_eq!(both::unpack_ticket(&packed), Err(8));
        }
    }
}

#[test]
fn heads() {
    let mut random = Random::for_test();
    let mut refused = 0;
    for _ in 0..20_000 {
        let packed = try_head(random.head()).expect("the head is valid");
        let other = turned(&packed, random.below(72));
        if let Ok(head) = both::unpack_head(&other) {
            assert_eq!(try_head(head), Ok(other));
        }
        refused += u32::from(try_head(random.edge_head()).is_err());
    }
    assert!(0 < refused && refused < 20_000);
}

#[test]
fn random_fields() {
    let mut random = Random::for_test();
    for _ in 0..20_000 {
        let ticket = Ticket {
            form: random.word() as u8,
            truck: random.word() as u16,
            shovel: random.word() as u8,
            tip: random.word() as u8,
            grade: random.word() as u8,
            loaded: random.word() as u32,
            tipped: random.word() as u32,
            gross: random.word() as u32,
            tare: random.word() as u32,
        };
        assert_eq!(try_ticket(ticket), Err(4));
        let head = Head {
            device: random.word() as u32,
            shift: random.word() as u32,
            sheet: random.word() as u32 >> random.below(32),
        };
        let _ = try_head(head);
    }
}

#[test]
fn random_bytes() {
    let mut random = Random::for_test();
    for length in 0..40 {
        for _ in 0..500 {
            let mut bytes = random.bytes(length);
            let _ = both::unpack_ticket(&bytes);
            let _ = both::unpack_head(&bytes);
            // Form 2, and form 1 with spare bits that are zero, so that the other rules are
            // reached.
            if let [first, ..] = &mut bytes[..] {
                *first = *first & 0x0F | 0x20;
            }
            let _ = both::unpack_ticket(&bytes);
            if let [first, .., last] = &mut bytes[..] {
                *first = *first & 0x0F | 0x10;
                *last &= 0xFC;
            }
            let _ = both::unpack_ticket(&bytes);
        }
    }
}
