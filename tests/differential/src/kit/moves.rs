//! Tickets moved from one form to the other.

use super::{both_forms, broken_forms, broken_tickets, hex, line, ticket_fields, File};
use super::{EMPTY_TRIPS, FORM_2, GREATEST_FORM_2, LATE, TICKET};
use crate::both;
use crate::random::Random;
use haul_tape::Ticket;

/// Lines of the file.
struct Lines(Vec<String>);

impl Lines {
    fn title(&mut self, title: &str) {
        self.0.push(format!("\n# {title}"));
    }

    /// The ticket moved to a form; answers it, if it moves.
    fn moved(&mut self, ticket: Ticket, form: u8) -> Option<Ticket> {
        let moved = both::move_ticket(ticket, form);
        let answer = match moved {
            Ok(moved) => {
                let packed = both::pack_ticket(moved, 13).out;
                line(&[&"done", &ticket_fields(moved), &hex(&packed)])
            }
            Err(number) => line(&[&"refused", &number]),
        };
        let fields = ticket_fields(ticket);
        self.0.push(line(&[&"move", &fields, &form, &"=", &answer]));
        moved.ok()
    }

    /// To the other form and back.
    fn there_and_back(&mut self, ticket: Ticket) {
        let there = self.moved(ticket, 3 - ticket.form).expect("it moves");
        assert_eq!(self.moved(there, ticket.form), Some(ticket));
    }
}

pub(super) fn moves() -> File {
    let mut lines = Lines(vec!["# move ticket form = answer".to_string()]);
    let mut random = Random::new(11);

    lines.title("Document 01's ticket, to form 2 and back; and as it is, in either form.");
    lines.there_and_back(TICKET);
    lines.moved(TICKET, 1);
    lines.moved(FORM_2, 2);
    lines.title("Around the ends of the ranges, to either form: 11 where form 1 ends.");
    for ticket in both_forms().into_iter().skip(2) {
        lines.moved(ticket, 1);
        lines.moved(ticket, 2);
    }
    lines.title("Trips back empty.");
    for ticket in EMPTY_TRIPS {
        lines.there_and_back(ticket);
    }
    lines.title("Any tickets of form 1, to form 2 and back; any tickets of form 2, to form 1.");
    for _ in 0..10 {
        lines.there_and_back(random.ticket_of_form(1));
    }
    for _ in 0..20 {
        lines.moved(random.ticket_of_form(2), 1);
    }

    lines.title("No such form is asked for. 4 before 11.");
    for form in [0, 3, 15, 16, 17, 18, 255] {
        for ticket in [TICKET, FORM_2, LATE] {
            lines.moved(ticket, form);
        }
    }
    lines.title("A ticket that breaks the rule, whichever form is asked for. 4 before 11.");
    for ticket in broken_tickets().into_iter().chain(broken_forms()) {
        lines.moved(ticket, 1);
        lines.moved(ticket, 2);
    }
    for ticket in [
        Ticket { truck: 0, ..LATE },
        Ticket {
            tare: 250_001,
            ..LATE
        },
        Ticket {
            loaded: 86_400,
            ..LATE
        },
        Ticket {
            grade: 10,
            ..GREATEST_FORM_2
        },
        Ticket { form: 1, ..LATE },
        Ticket { form: 3, ..LATE },
    ] {
        for form in [0, 1, 2, 3] {
            lines.moved(ticket, form);
        }
    }
    File::text("moves.txt", lines.0)
}
