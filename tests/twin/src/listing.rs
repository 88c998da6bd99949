//! The listing of a tape (document 01, "Ticket, head, tape").

use crate::number;
use crate::reader::{Next, Reader};
use crate::tape;
use crate::ticket::{self, HEAD_BYTES};

/// The listing of a tape, or the one line that refuses it. Every line ends with a line feed.
pub fn listing(key: &[u8], tape: &[u8]) -> Vec<u8> {
    match lines(key, tape) {
        Ok(text) => text.into_bytes(),
        Err(number) => refused(number),
    }
}

/// The listing for what the program reads: 16 bytes of key, and the tape behind them.
pub fn listing_of_input(input: &[u8]) -> Vec<u8> {
    match input.split_first_chunk::<16>() {
        Some((key, tape)) => listing(key, tape),
        None => refused(number::LENGTH),
    }
}

fn refused(number: u8) -> Vec<u8> {
    format!("REFUSED {number}\n").into_bytes()
}

fn lines(key: &[u8], tape: &[u8]) -> Result<String, u8> {
    let mut plain = vec![0; tape.len()];
    let (tickets, total_net) = tape::open_tape(key, tape, &mut plain)?;
    plain.truncate(ticket::TICKET_BYTES * tickets as usize);

    let head = ticket::unpack_head(&tape[..HEAD_BYTES])?;
    let mut text = format!("TAPE {} {} {}\n", head.device, head.shift, head.sheet);
    let mut reader = Reader::new(&plain);
    loop {
        match reader.next() {
            Next::Ticket(t) => text.push_str(&format!(
                "{} {} {} {} {} {} {} {}\n",
                reader.position(),
                t.truck,
                t.shovel,
                t.tip,
                t.grade,
                t.loaded,
                t.tipped,
                t.net()
            )),
            Next::End => break,
            Next::Refused(number) => return Err(number),
        }
    }
    text.push_str(&format!("TOTAL {tickets} {total_net}\n"));
    Ok(text)
}

#[cfg(test)]
mod tests {
    use super::*;
    use crate::tape::Writer;
    use crate::testing::TICKET;
    use crate::ticket::{Head, Ticket};

    const KEY: [u8; 16] = *b"sixteen key byte";

    /// A tape with document 01's head, case (i), and these tickets.
    fn tape_of(tickets: &[Ticket]) -> Vec<u8> {
        let head = Head {
            device: 7,
            shift: 2,
            sheet: 1,
        };
        let n = tickets.len();
        let mut tape = vec![0; 25 + 13 * n];
        let mut writer = Writer::fresh();
        writer.start(&KEY, &head, &mut tape).unwrap();
        for (i, ticket) in tickets.iter().enumerate() {
            writer.add(ticket, &mut tape[9 + 13 * i..]).unwrap();
        }
        writer.finish(&mut tape[9 + 13 * n..]).unwrap();
        tape
    }

    /// A tape with document 01's head and its ticket n times.
    fn tape(n: usize) -> Vec<u8> {
        tape_of(&vec![TICKET; n])
    }

    #[test]
    fn the_example() {
        let expected = b"TAPE 7 2 1\n1 5 2 3 4 3600 4200 140000\nTOTAL 1 140000\n";
        assert_eq!(listing(&KEY, &tape(1)), expected);
        let input = [&KEY[..], &tape(1)].concat();
        assert_eq!(listing_of_input(&input), expected);
    }

    #[test]
    fn other_numbers_of_tickets() {
        assert_eq!(listing(&KEY, &tape(0)), b"TAPE 7 2 1\nTOTAL 0 0\n");
        let expected = "TAPE 7 2 1\n\
            1 5 2 3 4 3600 4200 140000\n\
            2 5 2 3 4 3600 4200 140000\n\
            3 5 2 3 4 3600 4200 140000\n\
            TOTAL 3 420000\n";
        assert_eq!(listing(&KEY, &tape(3)), expected.as_bytes());
        let text = String::from_utf8(listing(&KEY, &tape(5_000))).unwrap();
        assert_eq!(text.lines().count(), 5_002);
        assert!(text.ends_with("\n5000 5 2 3 4 3600 4200 140000\nTOTAL 5000 700000000\n"));
    }

    /// A trip back empty has net 0, and the total is that of the other tickets.
    #[test]
    fn trips_back_empty() {
        let empty = |gross| Ticket {
            truck: 6,
            gross,
            tare: gross,
            ..TICKET
        };
        let tickets = [empty(250_000), TICKET, empty(0), empty(1_048_575)];
        let expected = "TAPE 7 2 1\n\
            1 6 2 3 4 3600 4200 0\n\
            2 5 2 3 4 3600 4200 140000\n\
            3 6 2 3 4 3600 4200 0\n\
            4 6 2 3 4 3600 4200 0\n\
            TOTAL 4 140000\n";
        assert_eq!(listing(&KEY, &tape_of(&tickets)), expected.as_bytes());
        let expected = b"TAPE 7 2 1\n1 6 2 3 4 3600 4200 0\nTOTAL 1 0\n";
        assert_eq!(listing(&KEY, &tape_of(&[empty(5)])), expected);
    }

    /// Lines of both forms look alike.
    #[test]
    fn both_forms() {
        let form_2 = Ticket { form: 2, ..TICKET };
        let one = listing(&KEY, &tape(1));
        assert_eq!(listing(&KEY, &tape_of(&[form_2])), one);
        let late = Ticket {
            loaded: 43_200,
            tipped: 86_399,
            ..form_2
        };
        let expected = "TAPE 7 2 1\n\
            1 5 2 3 4 43200 86399 140000\n\
            2 5 2 3 4 3600 4200 140000\n\
            3 5 2 3 4 3600 4200 140000\n\
            TOTAL 3 420000\n";
        for two in [[form_2, TICKET], [TICKET, form_2]] {
            let tape = tape_of(&[&[late][..], &two].concat());
            assert_eq!(listing(&KEY, &tape), expected.as_bytes());
        }
    }

    #[test]
    fn refusals() {
        let tape = tape(1);
        for length in [0, 1, 15] {
            assert_eq!(listing_of_input(&KEY[..length]), b"REFUSED 2\n");
        }
        assert_eq!(listing_of_input(&KEY), b"REFUSED 2\n");
        assert_eq!(listing(&KEY[..15], &tape), b"REFUSED 2\n");
        assert_eq!(listing(&KEY, &tape[..37]), b"REFUSED 2\n");
        assert_eq!(listing(&KEY, &[0; 38]), b"REFUSED 3\n");
        let mut turned = tape.clone();
        turned[37] ^= 0x80;
        assert_eq!(listing(&KEY, &turned), b"REFUSED 7\n");

        let head = &tape[..9];
        let nonce = [head, &[0; 7]].concat();
        // Form 12; document 01's ticket with tare 250,001; and that ticket in form 2, tipped at 86,400.
        let tare_above = *b"\x10\x14\x20\xd0\x38\x40\x41\xa0\xf4\x24\x0f\x42\x44";
        let late = *b"\x20\x14\x20\xd0\x1c\x21\x51\x80\x3d\x09\x01\xad\xb0";
        for plain in [[0xC1; 13], tare_above, late] {
            let mut bad = tape.clone();
            crate::message::seal(&KEY, &nonce, head, &plain, &mut bad[9..]).unwrap();
            assert_eq!(listing(&KEY, &bad), b"REFUSED 8\n");
        }
    }
}
