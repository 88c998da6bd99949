//! The ticket of the twin's tests.

use haul_tape_twin::ticket::Ticket;

/// Document 01, case (h).
pub const TICKET: Ticket = Ticket {
    form: 1,
    truck: 5,
    shovel: 2,
    tip: 3,
    grade: 4,
    loaded: 3600,
    tipped: 4200,
    gross: 250000,
    tare: 110000,
};
