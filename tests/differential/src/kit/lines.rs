//! The lines of a file about two tapes: opened ones, or receptions.

use super::{bytes_of, hex, pack_anyway, tapes, File};
use crate::both;
use haul_tape::Ticket;

/// Writes what is answered on two fields.
type OnTwo = fn(&mut Lines, &str, &str);

/// Lines of the file, with the tapes that a field may name.
pub(super) struct Lines<'a> {
    pub lines: Vec<String>,
    pub tapes: &'a [File],
    on_two: OnTwo,
}

impl<'a> Lines<'a> {
    pub fn new(titles: &str, tapes: &'a [File], on_two: OnTwo) -> Lines<'a> {
        Lines {
            lines: vec![titles.to_string()],
            tapes,
            on_two,
        }
    }

    pub fn title(&mut self, title: &str) {
        self.lines.push(format!("\n# {title}"));
    }

    /// The plain bytes that a field stands for.
    pub fn plain(&self, field: &str) -> Vec<u8> {
        let Some(name) = field.strip_suffix(".txt") else {
            return bytes_of(field);
        };
        let (key, tape) = tapes::key_and_tape(name, self.tapes);
        let opened = both::open_tape(&bytes_of(&key), &tape, tape.len() - 25);
        opened.answer.expect("the tape opens");
        opened.out
    }

    /// The file's call, or its calls, on two tapes.
    pub fn two(&mut self, first: &str, second: &str) {
        (self.on_two)(self, first, second);
    }

    /// The two tapes, each of them once as the first.
    pub fn both_orders(&mut self, one: &str, other: &str) {
        self.two(one, other);
        self.two(other, one);
    }
}

/// The opened tape with these tickets, as a field; `-` for none.
pub(super) fn tape_of(tickets: &[Ticket]) -> String {
    let packed = |&ticket: &Ticket| both::pack_ticket(ticket, 13).out;
    hex(&tickets.iter().flat_map(packed).collect::<Vec<u8>>())
}

/// The packed bytes of a ticket that breaks the rule, as a field.
pub(super) fn broken_ticket(ticket: Ticket) -> String {
    hex(&pack_anyway(ticket).expect("the ticket fits its widths"))
}
