//! Tickets of form 2 (document 02, P6), beside those of form 1. The bytes here were made by hand from
//! the widths of the fields.

mod common;

use common::TICKET as FORM_1;
use haul_tape_twin::forms::move_ticket;
use haul_tape_twin::listing::listing;
use haul_tape_twin::reader::{Next, Reader};
use haul_tape_twin::tape::{open_tape, Writer};
use haul_tape_twin::ticket::{pack, unpack, Head, Ticket};
use haul_tape_twin::trucks::truck_list;

/// Document 01's ticket in form 2.
const FORM_2: Ticket = Ticket { form: 2, ..FORM_1 };

const FORM_1_BYTES: [u8; 13] = [
    0x10, 0x14, 0x20, 0xD0, 0x38, 0x40, 0x41, 0xA0, 0xF4, 0x24, 0x06, 0xB6, 0xC0,
];

const FORM_2_BYTES: [u8; 13] = [
    0x20, 0x14, 0x20, 0xD0, 0x1C, 0x20, 0x10, 0x68, 0x3D, 0x09, 0x01, 0xAD, 0xB0,
];

fn packed(ticket: &Ticket) -> [u8; 13] {
    let mut out = [0; 13];
    assert_eq!(pack(ticket, &mut out), Ok(13));
    out
}

fn tipped(form: u8, tipped: u32) -> Ticket {
    Ticket {
        form,
        tipped,
        ..FORM_1
    }
}

/// The ticket is valid, and these are its bytes.
fn good(ticket: Ticket, bytes: [u8; 13]) {
    assert!(ticket.is_valid());
    assert_eq!(packed(&ticket), bytes);
    assert_eq!(unpack(&bytes), Ok(ticket));
}

/// The ticket breaks the rule, and bytes that say the same do not unpack.
fn bad(ticket: Ticket, bytes: [u8; 13]) {
    assert!(!ticket.is_valid());
    let mut out = [0xAA; 13];
    assert_eq!(pack(&ticket, &mut out), Err(4));
    assert_eq!(out, [0xAA; 13]);
    assert_eq!(unpack(&bytes), Err(8));
}

/// Bytes with others in place of those from `from` on.
fn with<const N: usize>(mut bytes: [u8; 13], from: usize, others: [u8; N]) -> [u8; 13] {
    bytes[from..from + N].copy_from_slice(&others);
    bytes
}

#[test]
fn the_worked_ticket() {
    good(FORM_1, FORM_1_BYTES);
    good(FORM_2, FORM_2_BYTES);
    assert_eq!(FORM_2.net(), 140000);
}

#[test]
fn last_second_of_form_1() {
    good(tipped(1, 43199), with(FORM_1_BYTES, 5, [0x42, 0xA2, 0xFC]));
    bad(tipped(1, 43200), with(FORM_1_BYTES, 5, [0x42, 0xA3, 0x00]));
    bad(tipped(1, 65535), with(FORM_1_BYTES, 5, [0x43, 0xFF, 0xFC]));
    // Form 2 goes on.
    good(tipped(2, 43199), with(FORM_2_BYTES, 5, [0x20, 0xA8, 0xBF]));
    good(tipped(2, 43200), with(FORM_2_BYTES, 5, [0x20, 0xA8, 0xC0]));
}

#[test]
fn last_second_of_form_2() {
    good(tipped(2, 86399), with(FORM_2_BYTES, 5, [0x21, 0x51, 0x7F]));
    bad(tipped(2, 86400), with(FORM_2_BYTES, 5, [0x21, 0x51, 0x80]));
    bad(tipped(2, 131071), with(FORM_2_BYTES, 5, [0x21, 0xFF, 0xFF]));
}

#[test]
fn the_seventeenth_bit() {
    good(tipped(2, 65535), with(FORM_2_BYTES, 5, [0x20, 0xFF, 0xFF]));
    good(tipped(2, 65536), with(FORM_2_BYTES, 5, [0x21, 0x00, 0x00]));
    // Loaded, too.
    for (loaded, bytes) in [
        (65535, [0xD1, 0xFF, 0xFF, 0x51, 0x7F]),
        (65536, [0xD2, 0x00, 0x01, 0x51, 0x7F]),
        (86399, [0xD2, 0xA2, 0xFF, 0x51, 0x7F]),
    ] {
        let ticket = Ticket {
            loaded,
            ..tipped(2, 86399)
        };
        good(ticket, with(FORM_2_BYTES, 3, bytes));
    }
    // Loaded after it is tipped, by a second, and by the seventeenth bit alone.
    let loaded = |loaded, tipped| Ticket {
        loaded,
        tipped,
        ..FORM_2
    };
    bad(
        loaded(65536, 65535),
        with(FORM_2_BYTES, 3, [0xD2, 0x00, 0x00, 0xFF, 0xFF]),
    );
    bad(
        loaded(65536, 0),
        with(FORM_2_BYTES, 3, [0xD2, 0x00, 0x00, 0x00, 0x00]),
    );
}

/// The smallest and the greatest value in every field of form 2.
#[test]
fn all_fields_of_form_2() {
    let smallest = Ticket {
        form: 2,
        truck: 1,
        shovel: 1,
        tip: 1,
        grade: 0,
        loaded: 0,
        tipped: 0,
        gross: 0,
        tare: 0,
    };
    good(
        smallest,
        [0x20, 0x04, 0x10, 0x40, 0, 0, 0, 0, 0, 0, 0, 0, 0],
    );
    let greatest = Ticket {
        form: 2,
        truck: 1023,
        shovel: 63,
        tip: 63,
        grade: 9,
        loaded: 86399,
        tipped: 86399,
        gross: 1048575,
        tare: 1048575,
    };
    good(
        greatest,
        [
            0x2F, 0xFF, 0xFF, 0xE6, 0xA2, 0xFF, 0x51, 0x7F, 0xFF, 0xFF, 0xFF, 0xFF, 0xFF,
        ],
    );
}

/// Tare up to gross in form 2 as well.
#[test]
fn trips_back_empty_in_form_2() {
    let tare = |tare| Ticket { tare, ..FORM_2 };
    good(tare(250000), with(FORM_2_BYTES, 10, [0x03, 0xD0, 0x90]));
    assert_eq!(tare(250000).net(), 0);
    bad(tare(250001), with(FORM_2_BYTES, 10, [0x03, 0xD0, 0x91]));
}

#[test]
fn no_other_form() {
    for (form, first) in [(0, 0x00), (3, 0x30), (15, 0xF0)] {
        bad(Ticket { form, ..FORM_1 }, with(FORM_1_BYTES, 0, [first]));
        bad(Ticket { form, ..FORM_2 }, with(FORM_2_BYTES, 0, [first]));
    }
    // More than four bits, with 1 or 2 in the last four.
    for form in [17, 18] {
        assert_eq!(pack(&Ticket { form, ..FORM_1 }, &mut [0; 13]), Err(4));
    }
}

#[test]
fn there_and_back() {
    assert_eq!(move_ticket(&FORM_1, 2), Ok(FORM_2));
    assert_eq!(move_ticket(&FORM_2, 1), Ok(FORM_1));
    for (ticket, other, bytes) in [(FORM_1, 2, FORM_1_BYTES), (FORM_2, 1, FORM_2_BYTES)] {
        let there = move_ticket(&ticket, other).unwrap();
        assert_eq!(there.form, other);
        let back = move_ticket(&there, ticket.form).unwrap();
        assert_eq!(packed(&back), bytes);
    }
}

#[test]
fn already_in_the_form() {
    for ticket in [
        FORM_1,
        FORM_2,
        tipped(1, 43199),
        tipped(2, 43200),
        tipped(2, 86399),
    ] {
        assert_eq!(move_ticket(&ticket, ticket.form), Ok(ticket));
    }
}

#[test]
fn number_11() {
    assert_eq!(move_ticket(&tipped(2, 43199), 1), Ok(tipped(1, 43199)));
    for late in [43200, 65535, 65536, 65536 + 4200, 86399] {
        assert_eq!(move_ticket(&tipped(2, late), 1), Err(11));
    }
    assert_eq!(move_ticket(&tipped(1, 43199), 2), Ok(tipped(2, 43199)));
}

#[test]
fn number_4_before_11() {
    let late = tipped(2, 43200);
    // No such form is asked for.
    for form in [0, 3, 15, 17, 18, 255] {
        for ticket in [FORM_1, FORM_2, late] {
            assert_eq!(move_ticket(&ticket, form), Err(4));
        }
    }
    // The ticket breaks the rule, whichever form is asked for.
    for ticket in [
        Ticket { form: 0, ..FORM_1 },
        Ticket { form: 3, ..FORM_1 },
        Ticket { form: 15, ..late },
        Ticket { truck: 0, ..FORM_1 },
        Ticket { truck: 0, ..late },
        Ticket {
            loaded: 43201,
            ..late
        },
        Ticket {
            tare: 250001,
            ..late
        },
        tipped(1, 43200),
        tipped(2, 86400),
        tipped(2, 131071),
    ] {
        for form in [0, 1, 2, 3] {
            assert_eq!(move_ticket(&ticket, form), Err(4), "{ticket:?} to {form}");
        }
    }
}

/// Both forms on one tape: written, opened, read and listed.
#[test]
fn a_mixed_tape() {
    let key = [9; 16];
    let head = Head {
        device: 7,
        shift: 2,
        sheet: 1,
    };
    let late = Ticket {
        truck: 6,
        loaded: 65535,
        ..tipped(2, 86399)
    };
    let empty = Ticket {
        truck: 7,
        tare: 250000,
        ..FORM_2
    };
    let tickets = [FORM_2, FORM_1, late, empty, tipped(1, 43199)];

    let mut tape = [0; 25 + 13 * 5];
    let mut writer = Writer::fresh();
    writer.start(&key, &head, &mut tape).unwrap();
    let mut at = 9;
    for ticket in &tickets {
        let done = writer.add(ticket, &mut tape[at..]).unwrap();
        assert_eq!(done.bytes, 13);
        at += done.bytes;
        // What breaks the rule of its form is not taken.
        for bad in [
            tipped(1, 43200),
            tipped(2, 86400),
            Ticket { form: 3, ..late },
        ] {
            assert_eq!(writer.add(&bad, &mut tape[at..]), Err(4));
        }
    }
    let done = writer.finish(&mut tape[at..]).unwrap();
    assert_eq!((done.bytes, done.steps), (16, 3144 + 5 * 104));
    assert_eq!(writer.tickets(), 5);

    let mut plain = [0; 13 * 5];
    assert_eq!(open_tape(&key, &tape, &mut plain), Ok((5, 560000)));
    assert_eq!(plain, tickets.map(|ticket| packed(&ticket)).concat()[..]);
    assert_eq!(plain[..13], FORM_2_BYTES);
    assert_eq!(plain[13..26], FORM_1_BYTES);

    let mut reader = Reader::new(&plain);
    for ticket in tickets {
        assert_eq!(reader.next(), Next::Ticket(ticket));
    }
    assert_eq!(reader.next(), Next::End);

    let text = "TAPE 7 2 1\n\
        1 5 2 3 4 3600 4200 140000\n\
        2 5 2 3 4 3600 4200 140000\n\
        3 6 2 3 4 65535 86399 140000\n\
        4 7 2 3 4 3600 4200 0\n\
        5 5 2 3 4 3600 43199 140000\n\
        TOTAL 5 560000\n";
    assert_eq!(String::from_utf8(listing(&key, &tape)).unwrap(), text);
    assert_eq!(truck_list(&plain), Ok(vec![5, 6, 7]));
}
