//! Tapes: written, opened, read, damaged, cut short, and random bytes in their place.

use haul_tape::{Head, Ticket};
use haul_tape_differential::both;
use haul_tape_differential::calls::write_tape;
use haul_tape_differential::kit::{pack_anyway, sealed};
use haul_tape_differential::random::{tare_above_gross, turned, Random};
use haul_tape_twin::ticket;

struct Tape {
    key: [u8; 16],
    tickets: Vec<Ticket>,
    bytes: Vec<u8>,
}

fn random_tape(random: &mut Random, tickets: usize) -> Tape {
    let tickets = (0..tickets).map(|_| random.ticket()).collect();
    tape_of(random, tickets)
}

fn tape_of(random: &mut Random, tickets: Vec<Ticket>) -> Tape {
    let (key, head) = (random.block(), random.head());
    let bytes = write_tape(&key, head, &tickets);
    Tape {
        key,
        tickets,
        bytes,
    }
}

/// Opens the tape, with outputs that are exact, longer, and too short by one; reads its tickets.
/// Answers the plain bytes.
fn there_and_back(tape: &Tape) -> Vec<u8> {
    let Tape {
        key,
        tickets,
        bytes,
    } = tape;
    let length = 13 * tickets.len();
    assert_eq!(bytes.len(), length + 25);
    let net = tickets.iter().map(|t| u64::from(t.gross - t.tare)).sum();
    let opened = both::open_tape(key, bytes, length);
    assert_eq!(opened.answer, Ok((tickets.len() as u64, net)));
    both::open_tape(key, bytes, length + 25);
    if length > 0 {
        let short = both::open_tape(key, bytes, length - 1);
        assert_eq!(short.answer, Err(6));
    }
    assert_eq!(both::read(&opened.out), (tickets.clone(), None));

    let mut out = vec![0; length];
    let opened_by_wrapper = haul_tape::open_tape(key, bytes, &mut out).unwrap();
    assert_eq!(opened_by_wrapper.tickets, tickets.len());
    assert_eq!(opened_by_wrapper.net, net);
    assert_eq!(out, opened.out);
    out
}

#[test]
fn random_tapes() {
    let mut random = Random::for_test();
    for tickets in 0..=40 {
        for _ in 0..10 {
            there_and_back(&random_tape(&mut random, tickets));
        }
    }
}

#[test]
fn the_longest_tape() {
    let mut random = Random::for_test();
    let tape = random_tape(&mut random, 5_000);
    let plain = there_and_back(&tape);
    assert_eq!(plain.len(), haul_tape::MOST_PLAIN_BYTES);
    assert_eq!(tape.bytes.len(), haul_tape::MOST_TAPE_BYTES);

    let last = turned(&tape.bytes, 8 * 65_025 - 1);
    assert_eq!(both::open_tape(&tape.key, &last, 65_000).answer, Err(7));
    let longer = [tape.bytes, random.bytes(13)].concat();
    assert_eq!(both::open_tape(&tape.key, &longer, 65_013).answer, Err(2));
}

/// Trips back empty count as tickets, and the total is that of the others.
#[test]
fn trips_back_empty() {
    let mut random = Random::for_test();
    for (with_load, without) in [(0, 1), (0, 5), (1, 1), (5, 1), (5, 5), (1, 39), (0, 5_000)] {
        let mut tickets: Vec<Ticket> = (0..with_load).map(|_| random.ticket_with_load()).collect();
        let net = tickets.iter().map(|t| u64::from(t.gross - t.tare)).sum();
        tickets.extend((0..without).map(|_| random.empty_trip()));
        random.shuffle(&mut tickets);
        let tape = tape_of(&mut random, tickets);
        there_and_back(&tape);
        let n = with_load + without;
        let opened = both::open_tape(&tape.key, &tape.bytes, 13 * n);
        assert_eq!(opened.answer, Ok((n as u64, net)));
    }
}

/// Lists of one form and mixed ones. With every ticket that may be in form 1 moved to the other form
/// the tape has as many tickets and the same net.
#[test]
fn both_forms() {
    let mut random = Random::for_test();
    for (form_1, form_2) in [
        (0, 1),
        (1, 0),
        (1, 1),
        (0, 7),
        (7, 0),
        (5, 9),
        (20, 19),
        (20, 20),
        (300, 331),
        (2_500, 2_500),
    ] {
        let mut tickets: Vec<Ticket> = (0..form_1).map(|_| random.ticket_of_form(1)).collect();
        tickets.extend((0..form_2).map(|_| random.ticket_of_form(2)));
        random.shuffle(&mut tickets);
        let moved = tickets
            .iter()
            .map(|&t| both::move_ticket(t, 3 - t.form).unwrap_or(t))
            .collect();
        let [tape, moved] = [tickets, moved].map(|tickets| tape_of(&mut random, tickets));
        let [plain, moved_plain] = [&tape, &moved].map(there_and_back);
        let [opened, moved_opened] =
            [&tape, &moved].map(|tape| both::open_tape(&tape.key, &tape.bytes, plain.len()).answer);
        assert_eq!(opened, moved_opened);
        assert_eq!(both::trucks(&plain), both::trucks(&moved_plain));
    }
}

/// Well sealed tapes on which one ticket, wherever it stands, has a form that there is not or is
/// tipped a second too late for its form.
#[test]
fn wrong_forms_and_times() {
    let mut random = Random::for_test();
    for (form, tipped) in [
        (0, 4_200),
        (3, 4_200),
        (15, 4_200),
        (1, 43_200),
        (1, 65_535),
        (2, 86_400),
        (2, 131_071),
    ] {
        for place in 0..5 {
            let Tape {
                key,
                tickets,
                bytes,
            } = random_tape(&mut random, 5);
            let mut wrong = tickets.clone();
            wrong[place] = Ticket {
                form,
                loaded: 3_600,
                tipped,
                ..wrong[place]
            };
            let plain: Vec<u8> = wrong.into_iter().flat_map(pack_anyway).flatten().collect();
            assert_eq!(plain.len(), 5 * 13);
            let head = bytes[..9].try_into().unwrap();
            let ran = both::open_tape(&key, &sealed(&key, head, &plain), plain.len());
            assert_eq!(ran.answer, Err(8));
            assert_eq!(ran.out, both::pattern(plain.len()));
            assert_eq!(both::read(&plain), (tickets[..place].to_vec(), Some(8)));
        }
    }
}

/// Well sealed tapes on which one ticket has a tare one above its gross, wherever it stands.
#[test]
fn tare_one_above_gross() {
    let mut random = Random::for_test();
    for tickets in 1..=6 {
        for place in 0..tickets {
            let Tape {
                key,
                tickets,
                bytes,
            } = random_tape(&mut random, tickets);
            let mut wrong = tickets.clone();
            wrong[place] = tare_above_gross(random.ticket());
            let plain: Vec<u8> = wrong.into_iter().flat_map(pack_anyway).flatten().collect();
            assert_eq!(plain.len(), 13 * tickets.len());
            let head = bytes[..9].try_into().unwrap();
            let ran = both::open_tape(&key, &sealed(&key, head, &plain), plain.len());
            assert_eq!(ran.answer, Err(8));
            assert_eq!(ran.out, both::pattern(plain.len()));
            assert_eq!(both::read(&plain), (tickets[..place].to_vec(), Some(8)));
        }
    }
}

/// Tapes around the lengths at which a longer scratch is taken.
#[test]
fn around_512_and_8192_bytes() {
    let mut random = Random::for_test();
    for tickets in [39, 40, 630, 631] {
        let tape = random_tape(&mut random, tickets);
        there_and_back(&tape);
        let bit = random.below(8 * tape.bytes.len());
        both::open_tape(&tape.key, &turned(&tape.bytes, bit), 13 * tickets);
    }
}

#[test]
fn every_bit_turned() {
    let mut random = Random::for_test();
    for tickets in [0, 1, 3] {
        let Tape { key, bytes, .. } = random_tape(&mut random, tickets);
        let room = 13 * tickets + 2;
        for bit in 0..8 * bytes.len() {
            let ran = both::open_tape(&key, &turned(&bytes, bit), room);
            let number = ran.answer.unwrap_err();
            assert!(number == 7 || number == 3 && bit < 72);
            assert_eq!(ran.out, both::pattern(room));
        }
        for bit in 0..128 {
            let ran = both::open_tape(&turned(&key, bit), &bytes, room);
            assert_eq!(ran.answer, Err(7));
            assert_eq!(ran.out, both::pattern(room));
        }
    }
}

#[test]
fn wrong_lengths() {
    let mut random = Random::for_test();
    let Tape { key, bytes, .. } = random_tape(&mut random, 4);
    for length in 0..bytes.len() {
        both::open_tape(&key, &bytes[..length], 80);
    }
    for key_bytes in [0, 15, 17, 32] {
        let key = random.bytes(key_bytes);
        assert_eq!(both::open_tape(&key, &bytes, 80).answer, Err(2));
    }
}

/// Random bytes; half of them begin with a valid head.
#[test]
fn random_bytes() {
    let mut random = Random::for_test();
    let mut refused = [0; 9];
    for _ in 0..4_000 {
        let key = random.block();
        let length = match random.below(3) {
            0 => random.below(120),
            _ => 25 + 13 * random.below(8),
        };
        let mut bytes = random.bytes(length);
        if length >= 9 && random.once_in(2) {
            bytes[..9].copy_from_slice(&random.head().pack().unwrap());
        }
        let room = random.below(120);
        let number = both::open_tape(&key, &bytes, room).answer.unwrap_err();
        refused[usize::from(number)] += 1;
    }
    println!("refused, by number: {:?}", &refused[1..]);
    assert!([2, 3, 6, 7].iter().all(|&number| refused[number] > 0));
}

/// Tapes whose tag is right, with plain bytes that hold a ticket that does not unpack, or a head
/// that is outside its range.
#[test]
fn well_sealed_and_wrong() {
    let mut random = Random::for_test();
    let mut refused = [0; 9];
    for _ in 0..1_500 {
        let key = random.block();
        let tickets: Vec<Ticket> = (0..1 + random.below(6)).map(|_| random.ticket()).collect();
        let mut plain = Vec::new();
        for ticket in &tickets {
            plain.extend(ticket.pack().unwrap());
        }
        if !random.once_in(4) {
            plain = turned(&plain, random.below(8 * plain.len()));
        }
        let head = match random.below(8) {
            0 => {
                let mut head = [0; 9];
                head.copy_from_slice(&random.bytes(9));
                head
            }
            _ => random.head().pack().unwrap(),
        };
        let ran = both::open_tape(&key, &sealed(&key, head, &plain), plain.len());
        let reads = both::read(&plain);
        match ran.answer {
            Ok((n, _)) => {
                assert_eq!(ran.out, plain);
                assert_eq!((reads.0.len() as u64, reads.1), (n, None));
            }
            Err(number) => {
                assert_eq!(ran.out, both::pattern(plain.len()));
                refused[usize::from(number)] += 1;
            }
        }
    }
    println!("refused, by number: {:?}", &refused[1..]);
    assert!([3, 8].iter().all(|&number| refused[number] > 0));
}

#[test]
fn the_reader() {
    let mut random = Random::for_test();
    let plain = there_and_back(&random_tape(&mut random, 12));
    for length in 0..=plain.len() {
        both::read(&plain[..length]);
    }
    for bit in 0..8 * plain.len() {
        both::read(&turned(&plain, bit));
    }
    for _ in 0..2_000 {
        let length = random.below(80);
        both::read(&random.bytes(length));
    }

    let ticket = random.ticket().pack().unwrap();
    for (tickets, end) in [(4_999, None), (5_000, None), (5_001, Some(2))] {
        assert_eq!(both::read(&ticket.repeat(tickets)).1, end);
    }
    assert_eq!(both::read(&vec![0; 65_001]).1, Some(2));
}

/// Any position, also behind the end.
#[test]
fn reading_at_positions() {
    let mut random = Random::for_test();
    let mut plain = there_and_back(&random_tape(&mut random, 6));
    plain[3 * 13] = 0;
    for position in [
        0,
        1,
        2,
        3,
        4,
        5,
        6,
        7,
        5_000,
        1 << 32,
        u64::MAX / 13 + 1,
        u64::MAX,
    ] {
        let library = haul_tape::exports::read_ticket(&plain, position);
        let place = usize::try_from(position).unwrap();
        match plain.chunks(13).nth(place).map(ticket::unpack) {
            Some(Ok(ticket)) => {
                assert_eq!(both::twin_ticket(library.ticket), ticket);
                assert_eq!((library.refused, library.at_end), (0, 0));
                assert_eq!(library.position, position + 1);
            }
            Some(Err(number)) => {
                assert_eq!((library.refused, library.at_end), (number.into(), 0));
                assert_eq!(library.position, position);
            }
            None => {
                assert_eq!((library.refused, library.at_end), (0, 1));
                assert_eq!(library.position, position);
            }
        }
        let library = haul_tape::exports::read_ticket(&plain[1..], position);
        assert_eq!((library.refused, library.at_end), (2, 0));
        assert_eq!(library.position, position);
    }
}

/// The nonce and the data of a tape are its head.
#[test]
fn a_tape_is_a_message() {
    let mut random = Random::for_test();
    for tickets in [0, 1, 5] {
        let tape = random_tape(&mut random, tickets);
        let plain = there_and_back(&tape);
        let (head, sealed) = tape.bytes.split_first_chunk::<9>().unwrap();
        assert!(Head::unpack(head).is_ok());
        let nonce = haul_tape_twin::tape::nonce_of(head);
        let whole = both::seal(&tape.key, &nonce, head, &plain, sealed.len());
        assert_eq!(whole.out, sealed);
    }
}
