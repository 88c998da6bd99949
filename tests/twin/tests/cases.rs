//! Cases (h) to (l) of document 01, "Cases to prove"; (l) as document 02's P2 amends it. Those of one step, (a) to (g), are in step_cases.rs.

mod common;

use common::TICKET;
use haul_tape_twin::ticket::{pack, pack_head, unpack, unpack_head, Head, Ticket};

#[test]
fn case_h() {
    let bytes = [
        0x10, 0x14, 0x20, 0xD0, 0x38, 0x40, 0x41, 0xA0, 0xF4, 0x24, 0x06, 0xB6, 0xC0,
    ];
    let mut out = [0; 13];
    assert_eq!(pack(&TICKET, &mut out), Ok(13));
    assert_eq!(out, bytes);
    assert_eq!(unpack(&bytes), Ok(TICKET));
    assert_eq!(TICKET.net(), 140000);
}

#[test]
fn case_i() {
    let head = Head {
        device: 7,
        shift: 2,
        sheet: 1,
    };
    let bytes = [0x00, 0x00, 0x00, 0x07, 0x00, 0x00, 0x20, 0x00, 0x01];
    let mut out = [0; 9];
    assert_eq!(pack_head(&head, &mut out), Ok(9));
    assert_eq!(out, bytes);
    assert_eq!(unpack_head(&bytes), Ok(head));
}

#[test]
fn cases_j_to_l() {
    let t = TICKET;
    assert!(Ticket { tipped: 43199, ..t }.is_valid());
    assert!(!Ticket { tipped: 43200, ..t }.is_valid());
    assert!(Ticket { loaded: 4200, ..t }.is_valid());
    assert!(Ticket { tare: 250000, ..t }.is_valid());
    assert!(!Ticket { tare: 250001, ..t }.is_valid());
}

/// Document 02, P2: the example beside number 4, and the weights around it.
#[test]
fn trips_back_empty() {
    for (gross, tare, valid) in [
        (5, 4, true),
        (5, 5, true),
        (5, 6, false),
        (0, 0, true),
        (0, 1, false),
    ] {
        let ticket = Ticket {
            gross,
            tare,
            ..TICKET
        };
        assert_eq!(ticket.is_valid(), valid, "{gross} and {tare}");
        let mut out = [0; 13];
        let answer = if valid { Ok(13) } else { Err(4) };
        assert_eq!(pack(&ticket, &mut out), answer);
        if valid {
            assert_eq!(unpack(&out), Ok(ticket));
            assert_eq!(ticket.net(), gross - tare);
        }
    }
}
