//! The conformance kit: its files, made by the library and checked against the twin on the way.
//!
//! The kit's README says what stands in them. They come out the same every time.

mod lines;
mod lists;
mod messages;
mod moves;
mod openings;
mod packed;
mod pairs;
mod readings;
mod receptions;
mod short_tags;
mod tapes;
mod trucks;

pub use readings::Readers;
pub use receptions::heard;
pub use tapes::sealed;

use haul_tape::{Head, Ticket};
use std::fmt::Display;

/// A file of the kit, with its name below the kit's directory.
pub struct File {
    pub name: String,
    pub bytes: Vec<u8>,
}

impl File {
    fn text(name: &str, lines: Vec<String>) -> File {
        File {
            name: name.to_string(),
            bytes: (lines.join("\n") + "\n").into_bytes(),
        }
    }
}

/// All files of the kit but its README and its script.
pub fn files() -> Vec<File> {
    let mut files = vec![
        messages::messages(),
        messages::long_messages(),
        messages::refused_messages(),
        packed::packed(),
        moves::moves(),
        lists::calls(),
        short_tags::short_tags(),
        short_tags::short_tag_calls(),
        readings::readings(),
    ];
    let tapes = tapes::tapes();
    files.push(openings::openings(&tapes));
    files.push(trucks::trucks(&tapes));
    files.push(receptions::receptions(&tapes));
    files.push(pairs::pairs(&tapes));
    files.extend(tapes);
    files
}

/// The published answers, in the form of the kit's messages.
pub const PUBLISHED: &str = include_str!("../published.txt");

/// Bytes in hexadecimal, `-` for none.
pub fn hex(bytes: &[u8]) -> String {
    if bytes.is_empty() {
        return "-".to_string();
    }
    bytes.iter().map(|byte| format!("{byte:02x}")).collect()
}

/// The bytes that a field of the kit stands for: hexadecimal, `-`, `*` and a length, or a number, `x`
/// and the bytes that stand so many times in a row; or several of these, joined by `+`.
pub fn bytes_of(field: &str) -> Vec<u8> {
    if let Some((first, rest)) = field.split_once('+') {
        return [bytes_of(first), bytes_of(rest)].concat();
    }
    if field == "-" {
        return Vec::new();
    }
    if let Some(length) = field.strip_prefix('*') {
        return by_rule(length.parse().expect("a length"));
    }
    if let Some((times, bytes)) = field.split_once('x') {
        return bytes_of(bytes).repeat(times.parse().expect("how many times"));
    }
    assert!(field.len().is_multiple_of(2), "two digits a byte: {field}");
    (0..field.len())
        .step_by(2)
        .map(|at| u8::from_str_radix(&field[at..at + 2], 16).expect("hexadecimal"))
        .collect()
}

/// Bytes too many to write down: byte i, counted from 0, is 167 i plus i / 256 rounded down, modulo
/// 256.
pub fn by_rule(length: usize) -> Vec<u8> {
    (0..length).map(|i| (167 * i + i / 256) as u8).collect()
}

/// `by_rule`, as a field.
fn star(length: usize) -> String {
    format!("*{length}")
}

/// Fields with a space between them.
fn line(fields: &[&dyn Display]) -> String {
    let fields: Vec<String> = fields.iter().map(|field| field.to_string()).collect();
    fields.join(" ")
}

fn head_fields(h: Head) -> String {
    line(&[&h.device, &h.shift, &h.sheet])
}

fn ticket_fields(t: Ticket) -> String {
    line(&[
        &t.form, &t.truck, &t.shovel, &t.tip, &t.grade, &t.loaded, &t.tipped, &t.gross, &t.tare,
    ])
}

/// Document 01's ticket, case (h).
const TICKET: Ticket = Ticket {
    form: 1,
    truck: 5,
    shovel: 2,
    tip: 3,
    grade: 4,
    loaded: 3_600,
    tipped: 4_200,
    gross: 250_000,
    tare: 110_000,
};

/// Document 01's head, case (i).
const HEAD: Head = Head {
    device: 7,
    shift: 2,
    sheet: 1,
};

/// The smallest values that a ticket with a net above 0 can have.
const SMALLEST: Ticket = Ticket {
    form: 1,
    truck: 1,
    shovel: 1,
    tip: 1,
    grade: 0,
    loaded: 0,
    tipped: 0,
    gross: 1,
    tare: 0,
};

/// The ticket with a load that has the greatest values.
const GREATEST: Ticket = Ticket {
    form: 1,
    truck: 1_023,
    shovel: 63,
    tip: 63,
    grade: 9,
    loaded: 43_199,
    tipped: 43_199,
    gross: 1_048_575,
    tare: 1_048_574,
};

/// Trips back empty: document 01's case (l), and those with the smallest and the greatest values.
const EMPTY_TRIPS: [Ticket; 3] = [
    Ticket {
        tare: 250_000,
        ..TICKET
    },
    Ticket {
        gross: 0,
        ..SMALLEST
    },
    Ticket {
        tare: 1_048_575,
        ..GREATEST
    },
];

/// The ticket beside number 4: its tare is one above its gross.
const TARE_ABOVE_GROSS: Ticket = Ticket {
    gross: 5,
    tare: 6,
    ..TICKET
};

/// Document 01's ticket in form 2.
const FORM_2: Ticket = Ticket { form: 2, ..TICKET };

/// The same, tipped in the last second of a day.
const LATE: Ticket = Ticket {
    tipped: 86_399,
    ..FORM_2
};

/// The smallest values that a ticket of form 2 with a net above 0 can have.
const SMALLEST_FORM_2: Ticket = Ticket {
    form: 2,
    ..SMALLEST
};

/// The ticket of form 2 with the greatest values. Its packed bytes end in ones.
const GREATEST_FORM_2: Ticket = Ticket {
    form: 2,
    loaded: 86_399,
    tipped: 86_399,
    tare: 1_048_575,
    ..GREATEST
};

/// Tickets of both forms, tipped around the ends of the ranges and the width of form 1.
fn both_forms() -> Vec<Ticket> {
    let tipped = |form, loaded, tipped| Ticket {
        form,
        loaded,
        tipped,
        ..TICKET
    };
    vec![
        TICKET,
        FORM_2,
        tipped(1, 3_600, 43_199),
        tipped(2, 3_600, 43_199),
        tipped(2, 3_600, 43_200),
        tipped(2, 43_200, 65_535),
        tipped(2, 65_535, 65_536),
        tipped(2, 65_536, 65_536 + 4_200),
        LATE,
        SMALLEST,
        SMALLEST_FORM_2,
        GREATEST,
        GREATEST_FORM_2,
    ]
}

/// The ticket with its truck, shovel, tip point or grade outside its range, which is the same in
/// either form.
fn places_out_of_range(t: Ticket) -> [Ticket; 7] {
    [
        Ticket { truck: 0, ..t },
        Ticket { truck: 1_024, ..t },
        Ticket { shovel: 0, ..t },
        Ticket { shovel: 64, ..t },
        Ticket { tip: 0, ..t },
        Ticket { tip: 64, ..t },
        Ticket { grade: 10, ..t },
    ]
}

/// Tickets of form 2 that break the rule, each in one place; and forms that there are not.
fn broken_forms() -> Vec<Ticket> {
    let t = FORM_2;
    let timed = |loaded, tipped| Ticket {
        loaded,
        tipped,
        ..t
    };
    let before = [
        Ticket { form: 15, ..t },
        timed(3_600, 86_400),
        timed(3_600, 131_071),
        timed(86_400, 86_400),
        timed(4_201, 4_200),
        // More by the seventeenth bit alone, and tipped again at 4,200 in seventeen bits.
        timed(65_536, 65_535),
        timed(65_536 + 4_200, 4_200),
        timed(3_600, 131_072 + 4_200),
    ];
    let after = [
        Ticket {
            gross: 1_048_576,
            ..t
        },
        Ticket { tare: 250_001, ..t },
        Ticket {
            form: 2,
            ..TARE_ABOVE_GROSS
        },
        Ticket {
            tare: 1_048_576,
            ..GREATEST_FORM_2
        },
    ];
    [&before[..], &places_out_of_range(t), &after[..]].concat()
}

/// Tickets that break the rule, each in one place. Those that came with form 2 stand in
/// [`broken_forms`].
fn broken_tickets() -> Vec<Ticket> {
    let t = TICKET;
    let before = [Ticket { form: 0, ..t }, Ticket { form: 3, ..t }];
    let after = [
        Ticket { loaded: 4_201, ..t },
        Ticket {
            tipped: 43_200,
            ..t
        },
        Ticket {
            gross: 1_048_576,
            ..t
        },
        Ticket { tare: 250_001, ..t },
        TARE_ABOVE_GROSS,
        Ticket {
            gross: 0,
            tare: 1,
            ..t
        },
        Ticket {
            gross: 1_048_574,
            tare: 1_048_575,
            ..t
        },
        Ticket {
            gross: 1_048_575,
            tare: 1_048_576,
            ..t
        },
        // Empty trips have the rest of the rule, too.
        Ticket {
            loaded: 4_201,
            ..EMPTY_TRIPS[0]
        },
        Ticket {
            truck: 0,
            ..EMPTY_TRIPS[1]
        },
        Ticket {
            grade: 10,
            ..EMPTY_TRIPS[2]
        },
    ];
    [&before[..], &places_out_of_range(t), &after[..]].concat()
}

/// Heads with one field outside its range.
fn broken_heads() -> Vec<Head> {
    let h = HEAD;
    vec![
        Head { device: 0, ..h },
        Head { shift: 0, ..h },
        Head {
            shift: 1_000_001,
            ..h
        },
        Head { sheet: 0, ..h },
        Head {
            sheet: 1_000_001,
            ..h
        },
    ]
}

/// Values and widths one behind the other, from the most significant bit of the first byte; `None`
/// if a value does not fit its width.
fn packed_fields<const BYTES: usize>(fields: &[(u32, u32)]) -> Option<[u8; BYTES]> {
    let mut bits: u128 = 0;
    let mut filled = 0;
    for &(value, width) in fields {
        if u64::from(value) >= 1 << width {
            return None;
        }
        bits = bits << width | u128::from(value);
        filled += width;
    }
    (bits << (128 - filled)).to_be_bytes()[..BYTES]
        .try_into()
        .ok()
}

/// The packed bytes of a ticket, even if it breaks the rule, with the widths of form 1 if its form is
/// not 2; `None` if a field does not fit its width.
pub fn pack_anyway(t: Ticket) -> Option<[u8; 13]> {
    let (time, spare) = if t.form == 2 { (17, 0) } else { (16, 2) };
    packed_fields(&[
        (t.form.into(), 4),
        (t.truck.into(), 10),
        (t.shovel.into(), 6),
        (t.tip.into(), 6),
        (t.grade.into(), 4),
        (t.loaded, time),
        (t.tipped, time),
        (t.gross, 20),
        (t.tare, 20),
        (0, spare),
    ])
}

/// The packed bytes of a head, even if a field is outside its range.
fn pack_head_anyway(h: Head) -> Option<[u8; 9]> {
    packed_fields(&[(h.device, 32), (h.shift, 20), (h.sheet, 20)])
}
