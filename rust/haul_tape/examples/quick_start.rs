//! Writes a tape with one ticket, opens it, and prints what is on it.

use haul_tape::{open_tape, Head, Reader, Refusal, Ticket, Writer};
use haul_tape::{HEAD_BYTES, TAG_BYTES, TICKET_BYTES};

fn main() -> Result<(), Refusal> {
    let key = [0, 1, 2, 3, 4, 5, 6, 7, 8, 9, 10, 11, 12, 13, 14, 15];
    let head = Head {
        device: 7,
        shift: 2,
        sheet: 1,
    };
    let ticket = Ticket {
        form: 1,
        truck: 5,
        shovel: 2,
        tip: 3,
        grade: 4,
        loaded: 3_600,
        tipped: 4_200,
        gross: 250_000,
        tare: 110_000,
    };

    // Each call writes its part of the tape at the start of what it is given, and says how long it is.
    let mut tape = [0; HEAD_BYTES + TICKET_BYTES + TAG_BYTES];
    let mut writer = Writer::new();
    let mut at = writer.start(&key, head, &mut tape)?.bytes;
    at += writer.add(ticket, &mut tape[at..])?.bytes;
    writer.finish(&mut tape[at..])?;
    let hex: String = tape.iter().map(|byte| format!("{byte:02x}")).collect();
    println!("tape {hex}");

    let mut plain = [0; TICKET_BYTES];
    let opened = open_tape(&key, &tape, &mut plain)?;
    for (number, ticket) in (1..).zip(Reader::new(&plain[..opened.bytes()])) {
        let ticket = ticket?;
        let net = ticket.gross - ticket.tare;
        println!("ticket {number}: truck {}, net {net} kg", ticket.truck);
    }
    println!("tickets {}, net {} kg", opened.tickets, opened.net);
    Ok(())
}
