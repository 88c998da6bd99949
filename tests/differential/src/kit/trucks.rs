//! The trucks on one opened tape and on two.

use super::lines::{broken_ticket, tape_of, Lines};
use super::{hex, line, star, File};
use super::{EMPTY_TRIPS, FORM_2, GREATEST, SMALLEST, TARE_ABOVE_GROSS, TICKET};
use crate::both;
use crate::random::turned;
use haul_tape::Ticket;

impl Lines<'_> {
    /// The trucks on an opened tape.
    fn one(&mut self, plain: &str) {
        let answer = match both::trucks(&self.plain(plain)) {
            Ok(trucks) => {
                let mut answer = line(&[&"done", &trucks.len()]);
                for truck in trucks {
                    answer = line(&[&answer, &truck]);
                }
                answer
            }
            Err(number) => line(&[&"refused", &number]),
        };
        self.lines.push(line(&[&"trucks", &plain, &"=", &answer]));
    }
}

/// The trucks on two opened tapes.
fn trucks_of_two(lines: &mut Lines, first: &str, second: &str) {
    let answer = match both::trucks_of_two(&lines.plain(first), &lines.plain(second)) {
        Ok(counts) => line(&[&"done", &counts.both, &counts.either, &counts.just_one]),
        Err(number) => line(&[&"refused", &number]),
    };
    let fields = line(&[&"trucks_of_two", &first, &second, &"=", &answer]);
    lines.lines.push(fields);
}

/// A ticket for each of these trucks in turn, as a field; `-` for none.
fn tape(trucks: &[u16]) -> String {
    let tickets = trucks.iter().map(|&truck| Ticket { truck, ..TICKET });
    tape_of(&tickets.collect::<Vec<_>>())
}

/// Trucks at both ends of each run of 64.
fn ends() -> Vec<u16> {
    (0..16)
        .flat_map(|k| [(64 * k).max(1), 64 * k + 63])
        .collect()
}

pub(super) fn trucks(tapes: &[File]) -> File {
    let titles = "# trucks plain = answer\n# trucks_of_two first second = answer";
    let mut lines = Lines::new(titles, tapes, trucks_of_two);
    let ticket = both::pack_ticket(TICKET, 13).out;
    let good = &hex(&ticket);
    let bad = &hex(&turned(&ticket, 8 * 12));
    let other = &tape(&[6]);

    lines.title("No bytes: no truck.");
    lines.one("-");
    lines.title("Document 01's ticket; three with other values; the same truck several times.");
    lines.one(good);
    let three = |truck: [u16; 3]| {
        let tickets = [SMALLEST, TICKET, GREATEST];
        tape_of(&[0, 1, 2].map(|i| Ticket {
            truck: truck[i],
            ..tickets[i]
        }))
    };
    lines.one(&three([1, 5, 1_023]));
    lines.one(&format!("3x{good}"));
    lines.one(&three([5, 5, 5]));
    lines.one(&three([700, 5, 700]));

    lines.title("One truck.");
    for truck in [1, 63, 64, 127, 128, 511, 512, 1_022, 1_023] {
        lines.one(&tape(&[truck]));
    }
    lines.title("Several trucks, in any order, some of them more than once.");
    lines.one(&tape(&[64, 63]));
    lines.one(&tape(&[1_023, 128, 1, 64, 127, 63]));
    lines.one(&tape(&[128, 64, 128, 63, 64, 128]));
    lines.one(&tape(&ends()));

    lines.title("Tapes of the directory; 5,000 tickets of one truck, of two and of three.");
    for name in ["0_tickets", "3_tickets", "40_tickets", "5000_tickets"] {
        lines.one(&format!("{name}.txt"));
    }
    lines.one(&format!("5000x{good}"));
    lines.one(&format!("2500x{good}+2500x{other}"));
    lines.one(&format!("{}+4998x{good}+{}", tape(&[1_023]), tape(&[1])));

    lines.title("Trips back empty: their trucks are counted.");
    lines.one("empty_trips.txt");
    lines.one(&tape_of(&EMPTY_TRIPS));
    for trip in EMPTY_TRIPS {
        lines.one(&tape_of(&[trip]));
    }

    lines.title("1, 12, 14, 25 and 27 bytes (26 are right), and around 5,000 tickets.");
    for length in [1, 12] {
        lines.one(&hex(&ticket[..length]));
    }
    lines.one(&format!("{good}+00"));
    lines.one(&hex(&ticket.repeat(2)[..25]));
    lines.one(&format!("2x{good}"));
    lines.one(&format!("2x{good}+00"));
    lines.one(&star(64_999));
    lines.one(&star(65_001));
    lines.one(&format!("5000x{good}+00"));
    lines.title("5,001 tickets.");
    lines.one(&format!("5001x{good}"));

    lines.title("A ticket that does not unpack: a spare bit is set, 13 zero bytes, truck 0,");
    lines.lines.push(
        "# grade 10, loaded above tipped, a tare above the gross (two), 65,000 bytes by rule."
            .to_string(),
    );
    lines.one(bad);
    lines.one("13x00");
    let t = TICKET;
    for broken in [
        Ticket { truck: 0, ..t },
        Ticket { grade: 10, ..t },
        Ticket { loaded: 4_201, ..t },
        Ticket { tare: 250_001, ..t },
        TARE_ABOVE_GROSS,
    ] {
        lines.one(&broken_ticket(broken));
    }
    lines.one(&star(65_000));
    lines.title("8 wherever it stands.");
    lines.one(&format!("{bad}+2x{good}"));
    lines.one(&format!("{good}+{bad}+{good}"));
    lines.one(&format!("2x{good}+{bad}"));
    lines.one(&format!("4999x{good}+{bad}"));
    lines.title("2 before 8.");
    lines.one(&format!("{bad}+{}", hex(&ticket[..12])));
    lines.one("64x00");
    lines.one(&format!("5001x{bad}"));

    lines.title("Two tapes, one or both of them without a ticket.");
    lines.two("-", "-");
    lines.both_orders(good, "-");
    lines.both_orders(&tape(&[1, 64, 1_023]), "-");
    lines.title("The same trucks, whatever their order and number of tickets.");
    lines.two(good, good);
    lines.two(good, &three([5, 5, 5]));
    lines.both_orders(&tape(&[63, 64, 1_023]), &tape(&[1_023, 63, 64, 63, 1_023]));
    lines.title("No truck in common.");
    lines.both_orders(good, other);
    lines.both_orders(&tape(&[63]), &tape(&[64]));
    lines.both_orders(&tape(&[1, 64, 128, 1]), &tape(&[1_023, 63, 127]));
    lines.title("Some in common.");
    lines.both_orders(&tape(&[5, 6, 5]), &tape(&[6, 7, 7]));
    lines.both_orders(
        &tape(&[1, 63, 64, 127, 128, 1_023]),
        &tape(&[1_023, 63, 64]),
    );
    lines.both_orders(&tape(&ends()), &tape(&[1, 2, 63, 1_022, 1_023]));
    lines.title("Tapes of the directory, and 5,000 tickets.");
    lines.both_orders("3_tickets.txt", "1_ticket.txt");
    lines.both_orders("40_tickets.txt", "5000_tickets.txt");
    lines.both_orders("empty_trips.txt", "1_ticket.txt");
    lines.both_orders("empty_trips.txt", &tape(&[1, 6]));
    lines.both_orders("5000_tickets.txt", &tape(&ends()));
    lines.two("5000_tickets.txt", "5000_tickets.txt");
    lines.both_orders(&format!("5000x{good}"), &format!("5000x{other}"));
    lines.both_orders(
        &format!("5000x{good}"),
        &format!("2500x{other}+2500x{good}"),
    );

    let (short, long) = (&hex(&ticket[..12]), &format!("5001x{good}"));
    let late = &format!("4999x{good}+{bad}");
    lines.title("One is refused: its number.");
    for refused in [short, long, bad, late] {
        lines.both_orders(good, refused);
        lines.both_orders("-", refused);
    }
    lines.title("Both are refused: the smaller number, whichever is the first.");
    lines.two(short, short);
    lines.both_orders(short, long);
    lines.two(bad, bad);
    lines.both_orders(short, bad);
    lines.both_orders(long, bad);
    lines.both_orders(long, late);
    lines.both_orders(bad, &format!("5001x{bad}"));

    lines.title("Form 2, alone and with form 1: a truck counts once, in whatever form.");
    let form_2 = |truck: u16| tape_of(&[Ticket { truck, ..FORM_2 }]);
    let second = &form_2(5);
    lines.one(second);
    for truck in [1, 63, 64, 1_023] {
        lines.one(&form_2(truck));
    }
    lines.one(&format!("{good}+{second}"));
    lines.one(&format!("{second}+{other}+{}", form_2(1_023)));
    lines.one(&format!("2500x{second}+2500x{good}"));
    for name in ["1_ticket_form_2", "both_forms", "60_tickets_both_forms"] {
        lines.one(&format!("{name}.txt"));
    }
    lines.both_orders(good, second);
    lines.both_orders(other, second);
    lines.both_orders("both_forms.txt", "1_ticket_form_2.txt");
    lines.both_orders("60_tickets_both_forms.txt", "5000_tickets.txt");
    lines.title("A ticket of form 3, one of form 15, one of form 2 tipped at 86,400.");
    for bad in [
        Ticket { form: 3, ..t },
        Ticket { form: 15, ..t },
        Ticket {
            tipped: 86_400,
            ..FORM_2
        },
    ] {
        let bad = broken_ticket(bad);
        lines.one(&format!("{good}+{second}+{bad}"));
        lines.both_orders(second, &bad);
    }
    File::text("trucks.txt", lines.lines)
}
