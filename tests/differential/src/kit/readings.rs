//! Readings: the tickets of plain bytes in turn.

use super::{bytes_of, hex, line, pack_anyway, star, ticket_fields, File};
use super::{EMPTY_TRIPS, FORM_2, GREATEST, GREATEST_FORM_2, LATE};
use super::{SMALLEST, TARE_ABOVE_GROSS, TICKET};
use crate::both;
use crate::random::turned;
use haul_tape::{exports, Ticket};
use haul_tape_twin::reader::{Next, Reader};

/// A reader of the library and one of the twin, over the same bytes.
pub struct Readers<'a> {
    plain: &'a [u8],
    position: u64,
    twin: Reader<'a>,
}

impl<'a> Readers<'a> {
    pub fn new(plain: &'a [u8]) -> Readers<'a> {
        Readers {
            plain,
            position: 0,
            twin: Reader::new(plain),
        }
    }

    /// Tickets handed out.
    pub fn position(&self) -> u64 {
        self.position
    }

    /// The next ticket, `None` at the end, or the number of a refusal.
    #[track_caller]
    pub fn read(&mut self) -> Result<Option<Ticket>, u8> {
        let library = exports::read_ticket(self.plain, self.position);
        let answer = match (library.refused, library.at_end) {
            (0, 0) => Ok(Some(library.ticket)),
            (0, 1) => Ok(None),
            (number, 0) => Err(u8::try_from(number).expect("a number of document 01")),
            both => panic!("refused and at the end: {both:?}"),
        };
        let twin = match self.twin.next() {
            Next::Ticket(ticket) => Ok(Some(ticket)),
            Next::End => Ok(None),
            Next::Refused(number) => Err(number),
        };
        assert_eq!(answer.map(|ticket| ticket.map(both::twin_ticket)), twin);
        assert_eq!(library.position, self.twin.position(), "position");
        self.position = library.position;
        answer
    }
}

/// Lines of the file, reader after reader.
struct Lines(Vec<String>);

impl Lines {
    /// Reads so often over the bytes of the field. Equal answers in a row share a line.
    fn reader(&mut self, title: &str, plain: &str, times: usize) {
        self.0.push(format!("\n# {title}"));
        self.0.push(format!("reader {plain}"));
        let bytes = bytes_of(plain);
        // the Rust reader besides
        both::read(&bytes);
        let mut readers = Readers::new(&bytes);
        let mut runs: Vec<(usize, Result<Option<Ticket>, u8>, u64)> = Vec::new();
        for _ in 0..times {
            let answer = readers.read();
            let position = readers.position();
            match runs.last_mut() {
                Some(run) if run.1 == answer => (run.0, run.2) = (run.0 + 1, position),
                _ => runs.push((1, answer, position)),
            }
        }
        for (times, answer, position) in runs {
            let answer = match answer {
                Ok(Some(ticket)) => line(&[&"ticket", &ticket_fields(ticket)]),
                Ok(None) => "end".to_string(),
                Err(number) => line(&[&"refused", &number]),
            };
            self.0
                .push(line(&[&"read", &times, &"=", &answer, &position]));
        }
    }
}

pub(super) fn readings() -> File {
    let mut lines = Lines(vec!["# read times = answer position".to_string()]);
    let packed = |ticket: Ticket| both::pack_ticket(ticket, 13).out;
    let good = packed(TICKET);
    let spare_bit = turned(&good, 8 * 12);

    lines.reader("No bytes: at the end at once.", "-", 3);
    lines.reader("Document 01's ticket.", &hex(&good), 3);
    let three = [SMALLEST, TICKET, GREATEST].map(packed).concat();
    lines.reader("Three tickets.", &hex(&three), 6);
    let plain = [&good[..], &EMPTY_TRIPS.map(packed).concat()].concat();
    lines.reader(
        "Document 01's ticket, then three trips back empty.",
        &hex(&plain),
        5,
    );
    lines.reader(
        "As many as there may be.",
        &format!("5000x{}", hex(&good)),
        5_002,
    );

    let plain = [&good[..], &spare_bit, &good].concat();
    lines.reader(
        "The second has a spare bit set: the third is not reached.",
        &hex(&plain),
        4,
    );
    let plain = [&[0; 13], &good[..]].concat();
    lines.reader("The first is no ticket.", &hex(&plain), 3);
    let t = TICKET;
    for (what, broken) in [
        ("is for truck 0", Ticket { truck: 0, ..t }),
        (
            "is loaded after it is tipped",
            Ticket { loaded: 4_201, ..t },
        ),
        ("has a tare above its gross", Ticket { tare: 250_001, ..t }),
        ("has tare 6 and gross 5", TARE_ABOVE_GROSS),
    ] {
        let broken = pack_anyway(broken).expect("the ticket fits its widths");
        let plain = [&good[..], &good, &broken].concat();
        lines.reader(&format!("The third {what}."), &hex(&plain), 4);
    }

    lines.reader("One byte.", &hex(&good[..1]), 2);
    lines.reader("12 bytes.", &hex(&good[..12]), 2);
    let plain = [&good[..], &[0]].concat();
    lines.reader(
        "14 bytes: the ticket before the last byte is not handed out.",
        &hex(&plain),
        3,
    );
    let plain = [&spare_bit[..], &good[..12]].concat();
    lines.reader("25 bytes, 2 before 8.", &hex(&plain), 2);
    for (title, length) in [
        ("A byte less than 5,000 tickets have.", 64_999),
        (
            "As many bytes as 5,000 tickets have, but no ticket.",
            65_000,
        ),
        ("A byte more.", 65_001),
    ] {
        lines.reader(title, &star(length), 2);
    }
    lines.reader(
        "5,001 tickets: none is handed out.",
        &format!("5001x{}", hex(&good)),
        3,
    );

    let second = packed(FORM_2);
    lines.reader("Document 01's ticket in form 2.", &hex(&second), 2);
    let plain = [FORM_2, TICKET, LATE, SMALLEST, GREATEST_FORM_2, GREATEST];
    lines.reader("Both forms.", &hex(&plain.map(packed).concat()), 7);
    lines.reader(
        "As many of both as there may be.",
        &format!("2500x{}+2500x{}", hex(&second), hex(&good)),
        5_001,
    );
    for (what, broken) in [
        ("has form 3", Ticket { form: 3, ..t }),
        (
            "has form 2 and is tipped at 86,400",
            Ticket {
                tipped: 86_400,
                ..FORM_2
            },
        ),
        (
            "has form 2 and is loaded after it is tipped",
            Ticket {
                loaded: 65_536 + 4_200,
                ..FORM_2
            },
        ),
    ] {
        let broken = pack_anyway(broken).expect("the ticket fits its widths");
        let plain = [&good[..], &second, &broken].concat();
        lines.reader(&format!("The third {what}."), &hex(&plain), 4);
    }
    File::text("readings.txt", lines.0)
}
