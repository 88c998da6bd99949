//! Tickets and heads, packed; and those that do not pack or unpack.

use super::{both_forms, broken_forms, broken_heads, broken_tickets};
use super::{head_fields, hex, line, ticket_fields};
use super::{pack_anyway, pack_head_anyway, File};
use super::{EMPTY_TRIPS, FORM_2, GREATEST, GREATEST_FORM_2, HEAD, SMALLEST, TICKET};
use crate::both;
use crate::random::{turned, Random};
use haul_tape::{Head, Ticket};

/// The ticket that document 01's bytes say with form 2 before them.
fn as_form_2() -> Ticket {
    let mut packed = TICKET.pack().expect("document 01's ticket packs");
    packed[0] = packed[0] & 0x0F | 0x20;
    both::unpack_ticket(&packed).expect("a ticket of form 2")
}

pub(super) fn packed() -> File {
    let mut random = Random::new(4);
    let mut lines = Vec::new();

    let mut tickets = vec![TICKET, SMALLEST, GREATEST];
    tickets.push(Ticket {
        loaded: 4_200,
        ..TICKET
    });
    tickets.push(Ticket {
        tipped: 43_199,
        ..TICKET
    });
    tickets.extend(EMPTY_TRIPS);
    tickets.push(Ticket {
        gross: 5,
        tare: 5,
        ..TICKET
    });
    tickets.extend((0..20).map(|_| random.ticket_of_form(1)));
    // Those that came with form 2.
    let mut random_2 = Random::new(10);
    let form_2 = both_forms().into_iter().filter(|t| t.form == 2);
    tickets.extend(form_2);
    tickets.extend(EMPTY_TRIPS.map(|t| Ticket { form: 2, ..t }));
    tickets.push(Ticket {
        loaded: 86_399,
        tipped: 86_399,
        ..FORM_2
    });
    tickets.push(as_form_2());
    tickets.extend((0..20).map(|_| random_2.ticket_of_form(2)));
    for ticket in tickets {
        let packed = both::pack_ticket(ticket, 13).out;
        assert_eq!(both::unpack_ticket(&packed), Ok(ticket));
        lines.push(line(&[&"ticket", &ticket_fields(ticket), &hex(&packed)]));
    }

    let mut heads = vec![HEAD];
    heads.push(Head {
        device: u32::MAX,
        shift: 1_000_000,
        sheet: 1_000_000,
    });
    heads.push(Head {
        device: 1,
        shift: 1,
        sheet: 1,
    });
    heads.extend((0..10).map(|_| random.head()));
    for head in heads {
        let packed = both::pack_head(head, 9).out;
        assert_eq!(both::unpack_head(&packed), Ok(head));
        lines.push(line(&[&"head", &head_fields(head), &hex(&packed)]));
    }

    for ticket in broken_tickets().into_iter().chain(broken_forms()) {
        assert_eq!(both::pack_ticket(ticket, 13).answer, Err(4));
        lines.push(line(&[&"refused_ticket 4", &ticket_fields(ticket)]));
    }
    for head in broken_heads() {
        assert_eq!(both::pack_head(head, 9).answer, Err(3));
        lines.push(line(&[&"refused_head 3", &head_fields(head)]));
    }

    let mut refused_ticket = |packed: &[u8]| {
        let number = both::unpack_ticket(packed).expect_err("no ticket");
        lines.push(line(&[&"refused_packed_ticket", &number, &hex(packed)]));
    };
    let ticket = TICKET.pack().expect("document 01's ticket packs");
    for length in [0, 12] {
        refused_ticket(&ticket[..length]);
    }
    refused_ticket(&[&ticket[..], &[0]].concat());
    refused_ticket(&[0; 13]);
    refused_ticket(&[0xFF; 13]);
    // The bits of form and spare.
    for bit in [4, 5, 6, 7, 96, 97] {
        refused_ticket(&turned(&ticket, bit));
    }
    for trip in EMPTY_TRIPS {
        refused_ticket(&turned(&trip.pack().expect("an empty trip packs"), 97));
    }
    for packed in broken_tickets().into_iter().filter_map(pack_anyway) {
        refused_ticket(&packed);
    }
    for packed in broken_forms().into_iter().filter_map(pack_anyway) {
        refused_ticket(&packed);
    }
    // The bytes of form 2 with another form before them.
    for ticket in [FORM_2, GREATEST_FORM_2] {
        let mut packed = ticket.pack().expect("a ticket of form 2 packs");
        for form in [0, 1, 3, 6, 10, 15] {
            packed[0] = packed[0] & 0x0F | form << 4;
            refused_ticket(&packed);
        }
    }

    let mut refused_head = |packed: &[u8]| {
        let number = both::unpack_head(packed).expect_err("no head");
        lines.push(line(&[&"refused_packed_head", &number, &hex(packed)]));
    };
    let head = HEAD.pack().expect("document 01's head packs");
    refused_head(&head[..8]);
    refused_head(&[&head[..], &[0]].concat());
    refused_head(&[0; 9]);
    refused_head(&[0xFF; 9]);
    for packed in broken_heads().into_iter().filter_map(pack_head_anyway) {
        refused_head(&packed);
    }
    File::text("packed.txt", lines)
}
