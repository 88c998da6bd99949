//! The shift tape: head, ciphertext of the packed tickets, tag (document 01, "Ticket, head, tape").

use crate::machine::{Kind, Machine};
use crate::message;
use crate::number;
use crate::ticket::{self, Head, Ticket, HEAD_BYTES, TICKET_BYTES};

pub use crate::machine::Done;

/// How far a writer has come.
#[derive(Clone, Copy, PartialEq, Eq, Debug)]
pub enum WriterPhase {
    Fresh,
    Open,
    Closed,
}

/// The plain writer: a sealing machine, the phase, and the number of tickets added.
#[derive(Clone, PartialEq, Eq, Debug)]
pub struct Writer {
    machine: Machine,
    phase: WriterPhase,
    tickets: u64,
}

impl Writer {
    /// A writer that has done nothing yet.
    pub fn fresh() -> Writer {
        Writer {
            machine: Machine::fresh(Kind::Sealing),
            phase: WriterPhase::Fresh,
            tickets: 0,
        }
    }

    pub fn phase(&self) -> WriterPhase {
        self.phase
    }

    /// Tickets added.
    pub fn tickets(&self) -> u64 {
        self.tickets
    }

    /// Steps of the cipher run since the writer was fresh.
    pub fn steps(&self) -> u64 {
        self.machine.steps()
    }

    /// Groups of the head and of the tickets added, each a piece by itself.
    pub fn groups(&self) -> u64 {
        self.machine.groups()
    }

    /// In fresh only: runs begin, then data with the head; writes the head; leads to open.
    pub fn start(&mut self, key: &[u8], head: &Head, out: &mut [u8]) -> Result<Done, u8> {
        if self.phase != WriterPhase::Fresh {
            return Err(number::PHASE);
        }
        if key.len() != 16 {
            return Err(number::LENGTH);
        }
        let mut packed = [0; HEAD_BYTES];
        ticket::pack_head(head, &mut packed)?;
        if out.len() < HEAD_BYTES {
            return Err(number::OUTPUT);
        }

        // No number is left that could apply to these two calls.
        self.machine.begin(key, &nonce_of(&packed))?;
        let done = self.machine.data(&packed)?;
        out[..HEAD_BYTES].copy_from_slice(&packed);
        self.phase = WriterPhase::Open;
        Ok(Done {
            bytes: HEAD_BYTES,
            steps: done.steps,
        })
    }

    /// In open only: runs text with the packed ticket and writes its ciphertext.
    pub fn add(&mut self, ticket: &Ticket, out: &mut [u8]) -> Result<Done, u8> {
        if self.phase != WriterPhase::Open {
            return Err(number::PHASE);
        }
        let mut packed = [0; TICKET_BYTES];
        ticket::pack(ticket, &mut packed)?;
        if self.tickets >= number::MAX_TICKETS as u64 {
            return Err(number::LIMIT);
        }

        // All that is left to refuse is a short output, and the machine does that with number 6.
        let done = self.machine.seal_text(&packed, out)?;
        self.tickets += 1;
        Ok(done)
    }

    /// In open only: runs close and writes the tag; leads to closed.
    pub fn finish(&mut self, out: &mut [u8]) -> Result<Done, u8> {
        if self.phase != WriterPhase::Open {
            return Err(number::PHASE);
        }

        // Here too, a short output is left to the machine.
        let done = self.machine.seal_close(out)?;
        self.phase = WriterPhase::Closed;
        Ok(done)
    }
}

/// The nonce of a tape: the head's 9 bytes and 7 zero bytes.
pub fn nonce_of(head: &[u8; HEAD_BYTES]) -> [u8; 16] {
    let mut nonce = [0; 16];
    nonce[..HEAD_BYTES].copy_from_slice(head);
    nonce
}

/// How many tickets a tape of this length holds: n where the length is 25 + 13n and n at most
/// 5,000.
fn tickets_on_tape(length: usize) -> Option<usize> {
    let tickets_length = length.checked_sub(HEAD_BYTES + 16)?;
    tickets_in(tickets_length)
}

/// How many packed tickets this many bytes are: n where the length is 13n and n at most 5,000.
pub(crate) fn tickets_in(length: usize) -> Option<usize> {
    let n = length / TICKET_BYTES;
    (TICKET_BYTES * n == length && n <= number::MAX_TICKETS).then_some(n)
}

/// Opens a tape. If all holds, writes the plain tickets at the start of `out` and answers their
/// number and total net in kilograms.
pub fn open_tape(key: &[u8], tape: &[u8], out: &mut [u8]) -> Result<(u64, u64), u8> {
    if key.len() != 16 {
        return Err(number::LENGTH);
    }
    let Some(n) = tickets_on_tape(tape.len()) else {
        return Err(number::LENGTH);
    };
    let (head, sealed) = tape
        .split_first_chunk::<HEAD_BYTES>()
        .expect("a tape has 25 bytes or more");
    ticket::unpack_head(head)?;
    if out.len() < TICKET_BYTES * n {
        return Err(number::OUTPUT);
    }
    let mut plain = vec![0; TICKET_BYTES * n];
    message::open(key, &nonce_of(head), head, sealed, &mut plain)?;
    let mut total_net = 0;
    for packed in plain.chunks(TICKET_BYTES) {
        total_net += u64::from(ticket::unpack(packed)?.net());
    }

    out[..plain.len()].copy_from_slice(&plain);
    Ok((n as u64, total_net))
}

#[cfg(test)]
mod tests {
    use super::*;
    use crate::reader::{Next, Reader};
    use crate::testing::{XorShift, TICKET};

    const KEY: [u8; 16] = [9; 16];
    const HEAD: Head = Head {
        device: 7,
        shift: 2,
        sheet: 1,
    };

    /// A trip back empty with this gross.
    fn empty_trip(gross: u32) -> Ticket {
        Ticket {
            gross,
            tare: gross,
            ..TICKET
        }
    }

    fn write_tape(key: &[u8], head: &Head, tickets: &[Ticket]) -> (Vec<u8>, Writer) {
        let mut writer = Writer::fresh();
        let mut tape = vec![0; 25 + 13 * tickets.len()];
        let mut at = 0;
        let done = writer.start(key, head, &mut tape).unwrap();
        assert_eq!((done.bytes, done.steps), (9, 1_864));
        at += done.bytes;
        for (i, ticket) in tickets.iter().enumerate() {
            let done = writer.add(ticket, &mut tape[at..]).unwrap();
            assert_eq!((done.bytes, done.steps), (13, 2_120 + 104 * (i as u64 + 1)));
            at += done.bytes;
        }
        let done = writer.finish(&mut tape[at..]).unwrap();
        assert_eq!(
            (done.bytes, done.steps),
            (16, 3_144 + 104 * tickets.len() as u64)
        );
        assert_eq!(at + done.bytes, tape.len());
        (tape, writer)
    }

    #[test]
    fn tapes_there_and_back() {
        let mut random = XorShift::new(51);
        for n in [0, 1, 2, 3, 20, 4_999, 5_000] {
            let key = random.block();
            let head = Head {
                device: random.between(1, u32::MAX),
                shift: random.between(1, 1_000_000),
                sheet: random.between(1, 1_000_000),
            };
            let tickets: Vec<Ticket> = (0..n).map(|_| random.ticket()).collect();
            let (tape, writer) = write_tape(&key, &head, &tickets);
            assert_eq!(writer.phase(), WriterPhase::Closed);
            assert_eq!(writer.tickets(), n as u64);
            assert_eq!(writer.steps(), 3_144 + 104 * n as u64);
            assert_eq!(ticket::unpack_head(&tape[..9]), Ok(head));
            let form_2 = tickets.iter().filter(|t| t.form == 2).count();
            assert!(n < 20 || (1..n).contains(&form_2));

            // The tape is the head and a whole sealing of the packed tickets.
            let mut plain = vec![0; 13 * n];
            for (packed, ticket) in plain.chunks_mut(13).zip(&tickets) {
                ticket::pack(ticket, packed).unwrap();
            }
            let mut sealed = vec![0; 13 * n + 16];
            let mut nonce = tape[..9].to_vec();
            nonce.extend_from_slice(&[0; 7]);
            message::seal(&key, &nonce, &tape[..9], &plain, &mut sealed).unwrap();
            assert_eq!(tape[9..], sealed);

            let total: u64 = tickets.iter().map(|t| u64::from(t.gross - t.tare)).sum();
            let mut out = vec![0xAA; 13 * n + 5];
            assert_eq!(open_tape(&key, &tape, &mut out), Ok((n as u64, total)));
            assert_eq!(out[..13 * n], plain);
            assert_eq!(out[13 * n..], [0xAA; 5]);

            let mut reader = Reader::new(&plain);
            for &ticket in &tickets {
                assert_eq!(reader.next(), Next::Ticket(ticket));
            }
            assert_eq!(reader.next(), Next::End);
        }
    }

    /// Trips back empty before, between and behind other tickets: they count, and add no net.
    #[test]
    fn trips_back_empty() {
        let other = Ticket { tare: 0, ..TICKET };
        let loaded = [TICKET, other];
        let total = |tickets: &[Ticket]| {
            let (tape, _) = write_tape(&KEY, &HEAD, tickets);
            open_tape(&KEY, &tape, &mut vec![0; 13 * tickets.len()])
        };
        assert_eq!(total(&loaded), Ok((2, 390_000)));
        for gross in [0, 1, 250_000, 1_048_575] {
            let empty = empty_trip(gross);
            assert_eq!(total(&[empty]), Ok((1, 0)));
            assert_eq!(total(&[empty; 3]), Ok((3, 0)));
            for place in 0..=2 {
                let mut tickets = loaded.to_vec();
                tickets.insert(place, empty);
                assert_eq!(total(&tickets), Ok((3, 390_000)));
            }
        }
    }

    #[test]
    fn refusals_of_the_writer() {
        /// Runs a call that must be refused with the number, and sees that nothing changed.
        fn refused(writer: &Writer, number: u8, call: impl Fn(&mut Writer) -> Result<Done, u8>) {
            let mut after = writer.clone();
            assert_eq!(call(&mut after), Err(number));
            assert_eq!(&after, writer);
        }
        let bad_head = Head { device: 0, ..HEAD };
        let bad_ticket = Ticket {
            gross: 5,
            tare: 6,
            ..TICKET
        };
        // Form 1 with a time of form 2 alone, form 2 with the second behind the day, no form.
        let bad_forms = [
            (1, 43_200),
            (2, 86_400),
            (0, 4_200),
            (3, 4_200),
            (15, 4_200),
        ]
        .map(|(form, tipped)| Ticket {
            form,
            tipped,
            ..TICKET
        });
        let late = Ticket {
            form: 2,
            tipped: 86_399,
            ..TICKET
        };

        let mut writer = Writer::fresh();
        refused(&writer, 1, |w| w.add(&bad_ticket, &mut []));
        refused(&writer, 1, |w| w.finish(&mut []));
        refused(&writer, 2, |w| w.start(&[0; 15], &bad_head, &mut []));
        refused(&writer, 2, |w| w.start(&[0; 17], &HEAD, &mut [0; 9]));
        refused(&writer, 3, |w| w.start(&KEY, &bad_head, &mut []));
        refused(&writer, 6, |w| w.start(&KEY, &HEAD, &mut [0; 8]));

        let mut out = [0xAA; 12];
        writer.start(&KEY, &HEAD, &mut out).unwrap();
        assert_eq!(out[9..], [0xAA; 3]);
        assert_eq!((writer.phase(), writer.tickets()), (WriterPhase::Open, 0));
        refused(&writer, 1, |w| w.start(&[], &bad_head, &mut []));
        refused(&writer, 4, |w| w.add(&bad_ticket, &mut []));
        for bad in &bad_forms {
            refused(&writer, 4, |w| w.add(bad, &mut []));
            refused(&writer, 4, |w| w.add(bad, &mut [0; 13]));
        }
        refused(&writer, 6, |w| w.add(&TICKET, &mut [0; 12]));
        refused(&writer, 6, |w| w.add(&late, &mut [0; 12]));
        refused(&writer, 6, |w| w.add(&empty_trip(5), &mut [0; 12]));
        refused(&writer, 6, |w| w.finish(&mut [0; 15]));

        for _ in 0..2_500 {
            writer.add(&TICKET, &mut [0; 13]).unwrap();
            writer.add(&late, &mut [0; 13]).unwrap();
        }
        refused(&writer, 4, |w| w.add(&bad_ticket, &mut []));
        refused(&writer, 4, |w| w.add(&bad_forms[1], &mut []));
        refused(&writer, 5, |w| w.add(&TICKET, &mut []));
        refused(&writer, 5, |w| w.add(&late, &mut [0; 13]));
        refused(&writer, 5, |w| w.add(&TICKET, &mut [0; 13]));
        refused(&writer, 5, |w| w.add(&empty_trip(5), &mut [0; 13]));
        refused(&writer, 6, |w| w.finish(&mut []));

        writer.finish(&mut [0; 16]).unwrap();
        refused(&writer, 1, |w| w.start(&[], &bad_head, &mut []));
        refused(&writer, 1, |w| w.add(&bad_ticket, &mut []));
        refused(&writer, 1, |w| w.finish(&mut []));
    }

    #[test]
    fn refused_writer_calls_write_nothing() {
        let mut writer = Writer::fresh();
        let mut out = [0xAA; 8];
        assert_eq!(writer.start(&KEY, &HEAD, &mut out), Err(6));
        assert_eq!(writer.finish(&mut out), Err(1));
        writer.start(&KEY, &HEAD, &mut [0; 9]).unwrap();
        assert_eq!(writer.add(&TICKET, &mut out), Err(6));
        assert_eq!(writer.finish(&mut out), Err(6));
        assert_eq!(out, [0xAA; 8]);
    }

    /// A tape with any head and any plain bytes in it, rightly sealed.
    fn forged(head: &[u8; 9], plain: &[u8]) -> Vec<u8> {
        let mut tape = head.to_vec();
        tape.resize(25 + plain.len(), 0);
        message::seal(&KEY, &nonce_of(head), head, plain, &mut tape[9..]).unwrap();
        tape
    }

    #[test]
    fn refusals_of_opening() {
        let (tape, _) = write_tape(&KEY, &HEAD, &[TICKET, TICKET]);
        let mut out = vec![0xAA; 65_013];
        let head: [u8; 9] = tape[..9].try_into().unwrap();
        let mut plain = [0; 13];
        ticket::pack(&TICKET, &mut plain).unwrap();

        // 2.
        for key in [&[0; 0][..], &[9; 15], &[9; 17]] {
            assert_eq!(open_tape(key, &tape, &mut out), Err(2));
            assert_eq!(open_tape(key, &[0; 51], &mut []), Err(2));
        }
        for length in 0..65_100 {
            let good = (25..=65_025).contains(&length) && (length - 25) % 13 == 0;
            // Of zeros: the head is outside its range.
            let number = if good { 3 } else { 2 };
            assert_eq!(open_tape(&KEY, &vec![0; length], &mut []), Err(number));
        }

        // 3, even where the tape was sealed with such a head; it wins over 6, 7 and 8.
        for wrong in [
            [0, 0, 0, 0, 0, 0, 0x20, 0, 1],
            [0, 0, 0, 7, 0, 0, 0, 0, 1],
            [0, 0, 0, 7, 0, 0, 0x20, 0, 0],
            [0, 0, 0, 7, 0xF4, 0x24, 0x10, 0, 1],
        ] {
            let tape = forged(&wrong, &plain);
            assert_eq!(open_tape(&KEY, &tape, &mut out), Err(3));
            assert_eq!(open_tape(&[1; 16], &tape, &mut []), Err(3));
        }

        // 6 wins over 7 and 8.
        assert_eq!(open_tape(&KEY, &tape, &mut out[..25]), Err(6));
        assert_eq!(open_tape(&[1; 16], &tape, &mut out[..25]), Err(6));
        let mut bad_plain = plain;
        bad_plain[12] |= 1;
        let bad_tape = forged(&head, &bad_plain);
        assert_eq!(open_tape(&KEY, &bad_tape, &mut out[..12]), Err(6));

        // 7 wins over 8; the last tag bit turned.
        assert_eq!(open_tape(&[1; 16], &tape, &mut out), Err(7));
        let mut turned = tape.clone();
        turned[50] ^= 0x80;
        assert_eq!(open_tape(&KEY, &turned, &mut out), Err(7));
        turned = bad_tape.clone();
        turned[37] ^= 0x80;
        assert_eq!(open_tape(&KEY, &turned, &mut out), Err(7));
        // A changed head that is still in range.
        turned = tape.clone();
        turned[3] ^= 1;
        assert_eq!(open_tape(&KEY, &turned, &mut out), Err(7));

        // 8: the last plain byte is C1, alone or behind a good ticket or before one.
        assert_eq!(bad_plain[12], 0xC1);
        assert_eq!(open_tape(&KEY, &bad_tape, &mut out), Err(8));
        // Tare 250,001 beside gross 250,000.
        let mut tare_above = plain;
        tare_above[10..].copy_from_slice(&[0x0F, 0x42, 0x44]);
        // Of form 1 tipped at 43,200, of form 2 at 86,400, and of forms 0, 3 and 15.
        let mut late_1 = plain;
        late_1[5..8].copy_from_slice(&[0x42, 0xA3, 0x00]);
        let late_2 = *b"\x20\x14\x20\xd0\x1c\x21\x51\x80\x3d\x09\x01\xad\xb0";
        let [form_0, form_3, form_15] = [0x00, 0x30, 0xF0].map(|first| {
            let mut bytes = plain;
            bytes[0] = first;
            bytes
        });
        for bad in [
            bad_plain, tare_above, late_1, late_2, form_0, form_3, form_15,
        ] {
            for two in [[plain, bad], [bad, plain]] {
                let tape = forged(&head, &two.concat());
                assert_eq!(open_tape(&KEY, &tape, &mut out), Err(8));
            }
        }

        assert_eq!(out, vec![0xAA; 65_013]);
        assert_eq!(open_tape(&KEY, &tape, &mut out[..26]), Ok((2, 280_000)));
        assert_eq!(open_tape(&KEY, &forged(&head, &[]), &mut []), Ok((0, 0)));
        // A second earlier both late ones are good.
        late_1[6..8].copy_from_slice(&[0xA2, 0xFC]);
        let mut last_second = late_2;
        last_second[7] = 0x7F;
        let tape = forged(&head, &[late_1, last_second].concat());
        assert_eq!(open_tape(&KEY, &tape, &mut out), Ok((2, 280_000)));
        assert_eq!(out[..26], [late_1, last_second].concat());
    }
}
