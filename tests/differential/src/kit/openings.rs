//! Tapes opened into rooms of several lengths.

use super::{bytes_of, hex, line, pack_anyway, pack_head_anyway, star, tapes, File};
use super::{EMPTY_TRIPS, FORM_2, GREATEST, GREATEST_FORM_2, HEAD, LATE};
use super::{SMALLEST, TARE_ABOVE_GROSS, TICKET};
use crate::both::{self, Ran};
use crate::calls::write_tape;
use crate::random::turned;
use haul_tape::{Head, Ticket};

/// An answer; `plain` is the field of the plain bytes.
fn answered(ran: &Ran<(u64, u64)>, plain: impl FnOnce(&[u8]) -> String) -> String {
    match ran.answer {
        Ok((n, net)) => {
            let plain = plain(&ran.out[..13 * n as usize]);
            line(&[&"done", &n, &net, &plain])
        }
        Err(number) => line(&[&"refused", &number]),
    }
}

/// Lines of the file.
struct Lines(Vec<String>);

impl Lines {
    fn title(&mut self, title: &str) {
        self.0.push(format!("\n# {title}"));
    }

    /// Opens a tape with its key, both as fields, into each of the rooms.
    fn opened(&mut self, key: &str, tape: &str, rooms: &[usize]) {
        for &room in rooms {
            let ran = both::open_tape(&bytes_of(key), &bytes_of(tape), room);
            let answer = answered(&ran, hex);
            self.0.push(line(&[&key, &tape, &room, &"=", &answer]));
        }
    }

    /// A tape of the kit's directory, too long to be written here, into just enough room and into a
    /// byte less.
    fn long(&mut self, name: &str, tapes: &[File]) {
        let (key, tape) = tapes::key_and_tape(name, tapes);
        for room in [tape.len() - 25, tape.len() - 26] {
            let ran = both::open_tape(&bytes_of(&key), &tape, room);
            let answer = answered(&ran, |_| format!("{name}.txt"));
            self.0.push(format!("{key} {name}.tape {room} = {answer}"));
        }
    }
}

pub(super) fn openings(tapes: &[File]) -> File {
    let mut lines = Lines(vec!["# key tape room = answer".to_string()]);
    let key: [u8; 16] = std::array::from_fn(|i| i as u8);
    let head = HEAD.pack().expect("document 01's head packs");
    let ticket = TICKET.pack().expect("document 01's ticket packs");
    let bad = turned(&ticket, 8 * 12);
    let tape_of_none = hex(&write_tape(&key, HEAD, &[]));
    let tape = write_tape(&key, HEAD, &[TICKET]);
    let three = hex(&write_tape(&key, HEAD, &[SMALLEST, TICKET, GREATEST]));
    let wrong_tag = |tape: &[u8]| turned(tape, 8 * tape.len() - 1);
    let (k, t) = (&hex(&key), &hex(&tape));

    lines.title("No ticket takes no room.");
    lines.opened(k, &tape_of_none, &[0, 5]);
    lines.title("Just enough room, and more.");
    lines.opened(k, t, &[13, 30]);
    lines.opened(k, &three, &[39]);
    lines.title("Too little.");
    lines.opened(k, t, &[12, 0]);
    lines.opened(k, &three, &[38, 26, 13, 0]);
    lines.title("Trips back empty, alone and with another ticket: they count, and add no net.");
    for empty in EMPTY_TRIPS {
        lines.opened(k, &hex(&write_tape(&key, HEAD, &[empty])), &[13]);
    }
    let [first, second, third] = EMPTY_TRIPS;
    let tape_of_four = hex(&write_tape(&key, HEAD, &[first, second, TICKET, third]));
    lines.opened(k, &tape_of_four, &[52, 51]);
    lines.title("5,000 tickets.");
    lines.long("5000_tickets", tapes);

    lines.title("2 before 3, 6 and 7: the key, then the tape's length.");
    for length in [0, 15, 17] {
        let wrong = hex(&[&key[..], &[16]].concat()[..length]);
        lines.opened(&wrong, t, &[13]);
    }
    lines.opened("-", "38x00", &[0]);
    for length in [0, 24, 26, 37, 39, 65_024, 65_026, 65_038] {
        lines.opened(k, &star(length), &[65_013, 0]);
    }
    lines.opened(k, "37x00", &[0]);

    lines.title("3 before 6 and 7. The tape is rightly sealed, then it is not.");
    let device_0 = pack_head_anyway(Head { device: 0, ..HEAD }).expect("the head fits its widths");
    let wrong_head = tapes::sealed(&key, device_0, &ticket);
    lines.opened(k, &hex(&wrong_head), &[13, 12, 0]);
    lines.opened(k, &hex(&wrong_tag(&wrong_head)), &[13, 12]);
    lines.opened(k, "38x00", &[0]);

    lines.title("6 before 7, and 6 before 8.");
    lines.opened(k, &hex(&wrong_tag(&tape)), &[13, 12, 0]);
    lines.opened(k, &star(65_025), &[65_000, 64_999]);
    let bad_ticket = tapes::sealed(&key, head, &bad);
    lines.opened(k, &hex(&bad_ticket), &[13, 12, 0]);

    lines.title("7 before 8.");
    lines.opened(k, &hex(&wrong_tag(&bad_ticket)), &[13]);
    let tare_above = pack_anyway(TARE_ABOVE_GROSS).expect("the ticket fits its widths");
    for (title, bad) in [
        ("8 wherever the bad ticket stands.", &bad[..]),
        ("The same, with tare 6 and gross 5.", &tare_above),
    ] {
        lines.title(title);
        for tickets in [
            [bad, &ticket, &ticket],
            [&ticket, bad, &ticket],
            [&ticket, &ticket, bad],
        ] {
            let tape = tapes::sealed(&key, head, &tickets.concat());
            lines.opened(k, &hex(&tape), &[39]);
        }
    }

    lines.title("Form 2, alone and with form 1.");
    lines.opened(k, &hex(&write_tape(&key, HEAD, &[FORM_2])), &[13, 12]);
    for tickets in [
        &[FORM_2, TICKET][..],
        &[TICKET, LATE],
        &[GREATEST_FORM_2, GREATEST, SMALLEST, LATE],
    ] {
        let room = 13 * tickets.len();
        lines.opened(k, &hex(&write_tape(&key, HEAD, tickets)), &[room, room - 1]);
    }
    lines.title(
        "Document 01's bytes with form 2 before them, which is another ticket; older kits have",
    );
    lines.0.push("# this tape as refused_8_form_2.".to_string());
    let mut as_form_2 = ticket;
    as_form_2[0] = as_form_2[0] & 0x0F | 0x20;
    lines.opened(k, &hex(&tapes::sealed(&key, head, &as_form_2)), &[13, 12]);
    let form_2 = FORM_2.pack().expect("a ticket of form 2 packs");
    for (title, bad) in [
        (
            "8 wherever a ticket of form 3 stands.",
            Ticket { form: 3, ..TICKET },
        ),
        (
            "The same, with form 2 and tipped at 86,400.",
            Ticket {
                tipped: 86_400,
                ..FORM_2
            },
        ),
    ] {
        lines.title(title);
        let bad = pack_anyway(bad).expect("the ticket fits its widths");
        for tickets in [
            [bad, form_2, ticket],
            [ticket, bad, form_2],
            [form_2, ticket, bad],
        ] {
            let tape = tapes::sealed(&key, head, &tickets.concat());
            lines.opened(k, &hex(&tape), &[39]);
        }
    }
    File::text("openings.txt", lines.0)
}
