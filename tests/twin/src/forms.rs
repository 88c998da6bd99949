//! Moving a ticket from one form to the other (document 02, P6).

use crate::number;
use crate::ticket::Ticket;

/// The ticket in the form asked for, all else kept; answers 4 if there is no such form or the ticket
/// is not valid, then 11 if it is of form 2 and tipped too late for form 1.
pub fn move_ticket(ticket: &Ticket, form: u8) -> Result<Ticket, u8> {
    if form != 1 && form != 2 {
        return Err(number::TICKET);
    }
    if !ticket.is_valid() {
        return Err(number::TICKET);
    }
    if ticket.form == 2 && form == 1 && ticket.tipped > 43_199 {
        return Err(number::TOO_LATE);
    }
    Ok(Ticket { form, ..*ticket })
}

#[cfg(test)]
mod tests {
    use super::*;
    use crate::testing::{XorShift, TICKET};
    use crate::ticket::pack;

    fn packed(ticket: &Ticket) -> [u8; 13] {
        let mut packed = [0; 13];
        pack(ticket, &mut packed).unwrap();
        packed
    }

    /// To the other form and back, where form 1 allows it; and to its own form.
    #[test]
    fn there_and_back() {
        let mut random = XorShift::new(81);
        let (mut from_1, mut from_2, mut too_late) = (0, 0, 0);
        for _ in 0..4_000 {
            let ticket = random.ticket();
            assert_eq!(move_ticket(&ticket, ticket.form), Ok(ticket));
            if ticket.tipped > 43_199 {
                assert_eq!(move_ticket(&ticket, 1), Err(11));
                too_late += 1;
                continue;
            }
            let other = 3 - ticket.form;
            let there = move_ticket(&ticket, other).unwrap();
            assert_eq!(
                there,
                Ticket {
                    form: other,
                    ..ticket
                }
            );
            assert_eq!(there.net(), ticket.net());
            assert_ne!(packed(&there), packed(&ticket));
            let back = move_ticket(&there, ticket.form).unwrap();
            assert_eq!(back, ticket);
            assert_eq!(packed(&back), packed(&ticket));
            match ticket.form {
                1 => from_1 += 1,
                _ => from_2 += 1,
            }
        }
        assert!(from_1 > 1_500 && from_2 > 700 && too_late > 700);
    }

    /// Any form asked for, of tickets at the edges: 4 before 11.
    #[test]
    fn refusals() {
        let mut random = XorShift::new(82);
        let mut given = [0; 12];
        for _ in 0..20_000 {
            let ticket = random.edge_ticket();
            for form in [0, 1, 2, 3, 15, 16, 17, 18, 255] {
                let late = ticket.form == 2 && form == 1 && ticket.tipped > 43_199;
                let expected = match form {
                    1 | 2 if !ticket.is_valid() => Err(4),
                    1 | 2 if late => Err(11),
                    1 | 2 => Ok(Ticket { form, ..ticket }),
                    _ => Err(4),
                };
                assert_eq!(move_ticket(&ticket, form), expected);
                given[usize::from(expected.err().unwrap_or(0))] += 1;
            }
        }
        assert!(given[0] > 1_000 && given[4] > 1_000 && given[11] > 1_000);
    }

    /// Every form asked for, of a good ticket of either form.
    #[test]
    fn all_forms_asked_for() {
        for ticket in [TICKET, Ticket { form: 2, ..TICKET }] {
            for form in 0..=255 {
                let expected = match form {
                    1 | 2 => Ok(Ticket { form, ..TICKET }),
                    _ => Err(4),
                };
                assert_eq!(move_ticket(&ticket, form), expected);
            }
        }
    }
}
