//! What a caller may rely on beside the library's own answers.

use haul_tape::{exports, listing, longer, message, open_tape, pair_tapes, parting};
use haul_tape::{truck_set_of, trucks, trucks_of_two};
use haul_tape::{Checking, Head, Paired, Parted, Reader, Refusal, Sealing, Ticket};
use haul_tape::{TruckCounts, Writer};
use std::error::Error;

const HEAD: Head = Head {
    device: 7,
    shift: 2,
    sheet: 1,
};

const TICKET: Ticket = Ticket {
    form: 1,
    truck: 5,
    shovel: 2,
    tip: 3,
    grade: 4,
    loaded: 3_600,
    tipped: 4_200,
    gross: 250_000,
    tare: 110_000,
};

/// Arrays of 16 bytes pass as they are, and so do slices; any other size is refused.
#[test]
fn sizes_of_key_nonce_and_tag() {
    let right = [1; 16];
    let stored = [1; 64];
    let mut out = [0; 64];
    assert_eq!(message::seal(&right, &right, &[], &[], &mut out), Ok(16));
    let (key, nonce) = (&stored[3..19], &stored[40..56]);
    assert_eq!(message::seal(key, nonce, &[], &[], &mut out), Ok(16));
    let tape = [0; 25];
    for size in (0..=64).filter(|&size| size != 16) {
        let wrong = &stored[..size];
        for (key, nonce) in [(wrong, &right[..]), (&right, wrong), (wrong, wrong)] {
            let answer = message::seal(key, nonce, &[], &[], &mut out);
            assert_eq!(answer, Err(Refusal::Size));
            let answer = message::open(key, nonce, &[], &right, &mut out);
            assert_eq!(answer, Err(Refusal::Size));
            assert_eq!(Sealing::new().begin(key, nonce), Err(Refusal::Size));
            assert_eq!(Checking::new().begin(key, nonce), Err(Refusal::Size));
        }
        let mut checking = Checking::new();
        checking.begin(&right, &right).unwrap();
        assert_eq!(checking.close(wrong), Err(Refusal::Size));
        let answer = Writer::new().start(wrong, HEAD, &mut out);
        assert_eq!(answer, Err(Refusal::Size));
        assert_eq!(open_tape(wrong, &tape, &mut out), Err(Refusal::Size));
        assert_eq!(listing(wrong, &tape, &mut out), Ok(10));
        assert_eq!(&out[..10], b"REFUSED 2\n");
    }
}

/// A tag of 8 to 16 bytes is the end of the sixteen, of whole messages and in pieces.
#[test]
fn tags_of_every_length() {
    let (key, nonce, data, text) = ([1; 16], [2; 16], b"shift 2", b"face 4 closed");
    let mut long = [0; 13 + 16];
    message::seal(&key, &nonce, data, text, &mut long).unwrap();
    for length in 8..=16 {
        let wanted = [&long[..13], &long[13 + 16 - length..]].concat();
        let sealed_bytes = 13 + length;

        // whole, with more room than is needed and with just so much
        let mut sealed = [0x5A; 13 + 16 + 3];
        let answer = message::seal_tag(&key, &nonce, data, text, length, &mut sealed);
        assert_eq!(answer, Ok(sealed_bytes));
        assert_eq!(sealed[..sealed_bytes], wanted);
        assert!(sealed[sealed_bytes..].iter().all(|&byte| byte == 0x5A));
        let mut exact = vec![0x5A; sealed_bytes];
        let answer = message::seal_tag(&key, &nonce, data, text, length, &mut exact);
        assert_eq!(answer, Ok(sealed_bytes));
        assert_eq!(exact, wanted);
        let mut opened = [0x5A; 13 + 3];
        let answer = message::open_tag(&key, &nonce, data, &wanted, length, &mut opened);
        assert_eq!(answer, Ok(13));
        assert_eq!(&opened[..13], text);
        assert_eq!(opened[13..], [0x5A; 3]);
        let mut exact = [0x5A; 13];
        let answer = message::open_tag(&key, &nonce, data, &wanted, length, &mut exact);
        assert_eq!(answer, Ok(13));
        assert_eq!(&exact, text);

        // in pieces
        for room in sealed_bytes..=13 + 16 + 3 {
            let mut sealed = [0x5A; 13 + 16 + 3];
            let mut sealing = Sealing::new();
            sealing.begin_tag(&key, &nonce, length).unwrap();
            sealing.data(data).unwrap();
            sealing.text(&text[..5], &mut sealed).unwrap();
            sealing.text(&text[5..], &mut sealed[5..]).unwrap();
            let short = sealing.close(&mut sealed[13..sealed_bytes - 1]);
            assert_eq!(short, Err(Refusal::Output));
            assert!(sealed[13..].iter().all(|&byte| byte == 0x5A));
            let done = sealing.close(&mut sealed[13..room]).unwrap();
            assert_eq!((done.bytes, done.steps), (length, 3_072 + 8 * (7 + 13)));
            assert_eq!(sealed[..sealed_bytes], wanted);
            assert!(sealed[sealed_bytes..].iter().all(|&byte| byte == 0x5A));
            assert_eq!(sealing.close(&mut [0; 16]), Err(Refusal::Phase));
        }
    }
}

/// A checking session takes a tag of the length that was fixed, and no other.
#[test]
fn tags_to_be_checked() {
    let (key, nonce, data, text) = ([1; 16], [2; 16], b"shift 2", b"face 4 closed");
    let mut long = [0; 13 + 16];
    message::seal(&key, &nonce, data, text, &mut long).unwrap();
    let tag_behind = [&long[13..], &[0; 8]].concat();
    for length in 8..=16 {
        let checking = || {
            let mut checking = Checking::new();
            checking.begin_tag(&key, &nonce, length).unwrap();
            checking.data(data).unwrap();
            checking.text(&long[..13]).unwrap();
            checking
        };
        let mut session = checking();
        for other in (0..=24).filter(|&other| other != length) {
            let from = 16_usize.saturating_sub(other);
            let answer = session.close(&tag_behind[from..from + other]);
            assert_eq!(answer, Err(Refusal::Size));
        }
        let tag = &long[13 + 16 - length..];
        let done = session.close(tag).unwrap();
        assert_eq!((done.bytes, done.steps), (0, 3_072 + 8 * (7 + 13)));
        assert_eq!(session.close(tag), Err(Refusal::Phase));

        for bit in 0..8 * length {
            let mut tag = tag.to_vec();
            tag[bit / 8] ^= 1 << (bit % 8);
            let mut session = checking();
            assert_eq!(session.close(&tag), Err(Refusal::Tag));
            assert_eq!(session.close(&tag), Err(Refusal::Phase));

            let sealed = [&long[..13], &tag].concat();
            let mut out = [0x5A; 13];
            let answer = message::open_tag(&key, &nonce, data, &sealed, length, &mut out);
            assert_eq!(answer, Err(Refusal::Tag));
            assert_eq!(out, [0x5A; 13]);
        }
        if length < 16 {
            // the first bytes of the sixteen, and not the last
            let mut session = checking();
            assert_eq!(session.close(&long[13..13 + length]), Err(Refusal::Tag));
        }
    }
}

/// What the calls of today do is what the calls with a length do for sixteen.
#[test]
fn sixteen_is_meant_without_a_length() {
    let (key, nonce) = ([1; 16], [2; 16]);
    for text in [&b""[..], b"face 4"] {
        let (mut without, mut with) = ([0; 22], [0; 22]);
        assert_eq!(
            exports::seal(&key, &nonce, b"data", text, &mut without),
            exports::seal_tag(&key, &nonce, b"data", text, 16, &mut with)
        );
        assert_eq!(without, with);
        let sealed = &with[..text.len() + 16];
        let (mut without, mut with) = ([0; 6], [0; 6]);
        assert_eq!(
            exports::open(&key, &nonce, b"data", sealed, &mut without),
            exports::open_tag(&key, &nonce, b"data", sealed, 16, &mut with)
        );
        assert_eq!(without, with);
    }
    for fresh in [
        exports::Session::fresh_sealing,
        exports::Session::fresh_checking,
    ] {
        let (mut without, mut with) = (fresh(), fresh());
        let answer = without.begin(&key, &nonce);
        assert_eq!(answer, with.begin_tag(&key, &nonce, 16));
        assert_eq!(without.words(), with.words());
    }
}

/// A length outside 8 to 16 is refused with 9, after 1 and before any other number.
#[test]
fn lengths_of_tags_that_there_are_not() {
    let (key, nonce) = ([1; 16], [2; 16]);
    let (right, short) = (&[1; 16][..], &[1; 15][..]);
    let long = vec![3; 65_536 + 17];
    let mut out = [0x5A; 40];
    let refused = exports::Written {
        refused: 9,
        bytes: 0,
    };
    let lengths = (0..8).chain(17..=40).chain([usize::MAX, usize::MAX - 15]);
    let lengths = lengths.chain((8..=16).map(|length| length + (1 << 32)));
    for length in lengths {
        // right arguments; then what is 2, 5 and 6 otherwise, and all of it
        for (key, nonce, data, text, room) in [
            (right, right, &[][..], &[4; 20][..], 40),
            (short, right, &[], &[4; 20], 40),
            (right, short, &[], &[4; 20], 40),
            (right, right, &[], &[], 40),
            (right, right, &long, &[4; 20], 40),
            (right, right, &[], &long, 40),
            (right, right, &[], &[4; 20], 0),
            (short, short, &long, &long, 0),
        ] {
            let out = &mut out[..room];
            let answer = exports::seal_tag(key, nonce, data, text, length, out);
            assert_eq!(answer, refused);
            let answer = exports::open_tag(key, nonce, data, text, length, out);
            assert_eq!(answer, refused);
            let answer = message::seal_tag(key, nonce, data, text, length, out);
            assert_eq!(answer, Err(Refusal::TagLength));
            let answer = message::open_tag(key, nonce, data, text, length, out);
            assert_eq!(answer, Err(Refusal::TagLength));
        }
        assert_eq!(out, [0x5A; 40]);

        for fresh in [
            exports::Session::fresh_sealing,
            exports::Session::fresh_checking,
        ] {
            let mut session = fresh();
            for (key, nonce) in [(right, right), (short, right), (right, short)] {
                let answer = session.begin_tag(key, nonce, length);
                assert_eq!((answer.refused, answer.bytes, answer.steps), (9, 0, 0));
                assert_eq!(session.words(), fresh().words());
            }
            assert_eq!(session.begin(&key, &nonce).refused, 0);
            let begun = *session.words();
            assert_eq!(session.begin_tag(&key, &nonce, length).refused, 1);
            assert_eq!(session.begin_tag(short, short, length).refused, 1);
            assert_eq!(session.words(), &begun);
        }
    }
    let mut session = Sealing::new();
    let answer = session.begin_tag(&key, &nonce, 7);
    assert_eq!(answer, Err(Refusal::TagLength));
    session.begin(&key, &nonce).unwrap();
    assert_eq!(session.begin_tag(&key, &nonce, 7), Err(Refusal::Phase));
    let mut session = Checking::new();
    let answer = session.begin_tag(short, &nonce, 17);
    assert_eq!(answer, Err(Refusal::TagLength));
    session.begin(&key, &nonce).unwrap();
    assert_eq!(session.begin_tag(&key, &nonce, 17), Err(Refusal::Phase));
}

/// With a length that there is, the other numbers come in their order.
#[test]
fn refusals_of_calls_with_a_length() {
    let key = [1; 16];
    let (nonce, short) = (&[2; 16][..], &[2; 15][..]);
    let long = vec![3; 65_536 + 17];
    for length in 8..=16 {
        let mut out = [0x5A; 40];
        let seal = |nonce: &[u8], data: &[u8], text: &[u8], out: &mut [u8]| {
            message::seal_tag(&key, nonce, data, text, length, out)
        };
        let room = &mut out[..20 + length - 1];
        let (most, more) = (&long[..65_536], &long[..65_537]);
        assert_eq!(seal(nonce, &[], &[4; 20], room), Err(Refusal::Output));
        assert_eq!(seal(nonce, &[], most, room), Err(Refusal::Output));
        assert_eq!(seal(nonce, &[], more, room), Err(Refusal::Limit));
        assert_eq!(seal(nonce, more, &[], room), Err(Refusal::Limit));
        assert_eq!(seal(short, more, more, room), Err(Refusal::Size));

        let open = |nonce: &[u8], data: &[u8], sealed: &[u8], out: &mut [u8]| {
            message::open_tag(&key, nonce, data, sealed, length, out)
        };
        let room = &mut out[..19];
        let sealed = &long[..20 + length];
        let (most, more) = (&long[..65_536 + length], &long[..65_537 + length]);
        assert_eq!(open(nonce, &[], &sealed[1..], room), Err(Refusal::Tag));
        assert_eq!(open(nonce, &[], sealed, room), Err(Refusal::Output));
        assert_eq!(open(nonce, &[], most, room), Err(Refusal::Output));
        assert_eq!(open(nonce, &[], more, room), Err(Refusal::Limit));
        assert_eq!(open(nonce, &long, sealed, room), Err(Refusal::Limit));
        assert_eq!(open(short, &long, more, room), Err(Refusal::Size));
        assert_eq!(
            open(nonce, &[], &long[..length], &mut []),
            Err(Refusal::Tag)
        );
        for size in 0..length {
            assert_eq!(open(nonce, &[], &long[..size], room), Err(Refusal::Size));
            let answer = open(nonce, &long, &long[..size], &mut []);
            assert_eq!(answer, Err(Refusal::Size));
        }
        assert_eq!(out, [0x5A; 40]);
    }
}

/// A refused begin fixes nothing: the length is that of the begin that is done.
#[test]
fn a_refused_begin_fixes_no_length() {
    let (key, nonce, short) = ([1; 16], [2; 16], &[2; 15][..]);
    let mut tag = [0; 16];
    message::seal(&key, &nonce, &[], &[], &mut tag).unwrap();
    for length in 8..=16 {
        // the refused begin has another length, and so has one that comes too late
        let other = if length == 16 { 8 } else { 16 };
        let mut out = [0x5A; 20];
        let mut session = Sealing::new();
        let answer = session.begin_tag(&key, short, other);
        assert_eq!(answer, Err(Refusal::Size));
        assert_eq!(session.begin_tag(&key, &nonce, 7), Err(Refusal::TagLength));
        session.begin_tag(&key, &nonce, length).unwrap();
        let answer = session.begin_tag(&key, &nonce, other);
        assert_eq!(answer, Err(Refusal::Phase));
        assert_eq!(session.begin(&key, &nonce), Err(Refusal::Phase));
        assert_eq!(session.close(&mut out).unwrap().bytes, length);
        assert_eq!(out[..length], tag[16 - length..]);
        assert!(out[length..].iter().all(|&byte| byte == 0x5A));

        let mut session = Checking::new();
        let answer = session.begin_tag(short, &nonce, other);
        assert_eq!(answer, Err(Refusal::Size));
        assert_eq!(session.begin_tag(&key, &nonce, 17), Err(Refusal::TagLength));
        session.begin_tag(&key, &nonce, length).unwrap();
        assert_eq!(session.begin(&key, &nonce), Err(Refusal::Phase));
        assert_eq!(session.close(&tag[16 - other..]), Err(Refusal::Size));
        session.close(&tag[16 - length..]).unwrap();

        // after it begin fixes sixteen
        let mut session = Checking::new();
        let answer = session.begin_tag(short, &nonce, length);
        assert_eq!(answer, Err(Refusal::Size));
        session.begin(&key, &nonce).unwrap();
        session.close(&tag).unwrap();
    }
}

fn weighing(gross: u32, tare: u32) -> Ticket {
    Ticket {
        gross,
        tare,
        ..TICKET
    }
}

/// An empty trip, where tare is gross, is a ticket like others, with net 0.
#[test]
fn empty_trips() {
    let key = [1; 16];
    let weights = [0, 1, 5, 250_000, 1_048_575];
    let tickets = [TICKET]
        .into_iter()
        .chain(weights.map(|gross| weighing(gross, gross)))
        .collect::<Vec<_>>();
    let mut tape = vec![0; 25 + 13 * tickets.len()];
    let mut writer = Writer::new();
    let mut at = writer.start(&key, HEAD, &mut tape).unwrap().bytes;
    for &ticket in &tickets {
        assert_eq!(Ticket::unpack(&ticket.pack().unwrap()), Ok(ticket));
        at += writer.add(ticket, &mut tape[at..]).unwrap().bytes;
    }
    writer.finish(&mut tape[at..]).unwrap();

    let mut out = vec![0; 1_000];
    let opened = open_tape(&key, &tape, &mut out).unwrap();
    assert_eq!((opened.tickets, opened.net), (6, 140_000));
    let plain = &out[..opened.bytes()];
    assert!(Reader::new(plain).eq(tickets.into_iter().map(Ok)));
    assert_eq!(trucks(plain), Ok(1));

    let bytes = listing(&key, &tape, &mut out).unwrap();
    let text = std::str::from_utf8(&out[..bytes]).unwrap();
    let nets = text.lines().map(|line| line.rsplit(' ').next().unwrap());
    let expected = ["1", "140000", "0", "0", "0", "0", "0", "140000"];
    assert!(nets.eq(expected), "{text}");
}

/// A tare above the gross, here by one kilogram, breaks the ticket's rule.
#[test]
fn tare_above_gross() {
    let key = [1; 16];
    let head = HEAD.pack().unwrap();
    let mut nonce = [0; 16];
    nonce[..9].copy_from_slice(&head);
    for (gross, tare) in [(0, 1), (5, 6), (250_000, 250_001), (1_048_574, 1_048_575)] {
        let wrong = weighing(gross, tare);
        assert_eq!(wrong.pack(), Err(Refusal::Ticket));
        let mut out = [0x5A; 26];
        let mut writer = Writer::new();
        writer.start(&key, HEAD, &mut [0; 9]).unwrap();
        assert_eq!(writer.add(wrong, &mut out), Err(Refusal::Ticket));
        assert_eq!(writer.add(TICKET, &mut [0; 13]).unwrap().steps, 2_224);

        // its bytes, with the tare put between the gross and two spare bits, and a tape of them
        let packed = weighing(gross, 0).pack().unwrap();
        let mut bytes = [0; 16];
        bytes[3..].copy_from_slice(&packed);
        let packed = (u128::from_be_bytes(bytes) | u128::from(tare) << 2).to_be_bytes();
        assert_eq!(Ticket::unpack(&packed[3..]), Err(Refusal::Unpack));
        let plain = [&TICKET.pack().unwrap(), &packed[3..]].concat();
        let mut tape = head.to_vec();
        tape.resize(25 + plain.len(), 0);
        message::seal(&key, &nonce, &head, &plain, &mut tape[9..]).unwrap();
        assert_eq!(open_tape(&key, &tape, &mut out), Err(Refusal::Unpack));
        assert_eq!(out, [0x5A; 26]);
        assert_eq!(listing(&key, &tape, &mut out), Ok(10));
        assert_eq!(&out[..10], b"REFUSED 8\n");
        let read = Reader::new(&plain).collect::<Vec<_>>();
        assert_eq!(read, [Ok(TICKET), Err(Refusal::Unpack)]);
        assert_eq!(trucks(&plain), Err(Refusal::Unpack));
    }
}

fn timed(form: u8, loaded: u32, tipped: u32) -> Ticket {
    Ticket {
        form,
        loaded,
        tipped,
        ..TICKET
    }
}

/// Document 01's ticket in form 2, by its bytes.
#[test]
fn the_worked_ticket_of_form_2() {
    let ticket = Ticket { form: 2, ..TICKET };
    let packed = *b"\x20\x14\x20\xD0\x1C\x20\x10\x68\x3D\x09\x01\xAD\xB0";
    assert_eq!(ticket.pack(), Ok(packed));
    assert_eq!(Ticket::unpack(&packed), Ok(ticket));
    assert_eq!(TICKET.in_form(2).unwrap().pack(), Ok(packed));
    assert_eq!(ticket.in_form(1).unwrap().pack(), TICKET.pack());
}

/// Up to its form's last second a ticket is valid and moves; a second later it is neither.
#[test]
fn last_seconds_of_the_forms() {
    for (form, last) in [(1, 43_199), (2, 86_399)] {
        for loaded in [0, last - 1, last] {
            let ticket = timed(form, loaded, last);
            let packed = ticket.pack().unwrap();
            assert_eq!(Ticket::unpack(&packed), Ok(ticket));
            assert_eq!(ticket.in_form(form), Ok(ticket));
        }
        for (loaded, tipped) in [(0, last + 1), (last, last - 1), (last + 1, last + 1)] {
            let wrong = timed(form, loaded, tipped);
            assert_eq!(wrong.pack(), Err(Refusal::Ticket));
            assert_eq!(wrong.in_form(1), Err(Refusal::Ticket));
            assert_eq!(wrong.in_form(2), Err(Refusal::Ticket));
        }
    }
    // form 2 goes on where form 1 ends, and past sixteen bits
    for tipped in [43_200, 65_535, 65_536, 65_536 + 4_200] {
        for loaded in [0, tipped] {
            let ticket = timed(2, loaded, tipped);
            let packed = ticket.pack().unwrap();
            assert_eq!(Ticket::unpack(&packed), Ok(ticket));
            assert_eq!(timed(1, loaded, tipped).pack(), Err(Refusal::Ticket));
        }
    }
    for form in (0..=255).filter(|form| ![1, 2].contains(form)) {
        let wrong = Ticket { form, ..TICKET };
        assert_eq!(wrong.pack(), Err(Refusal::Ticket));
        if form < 16 {
            let mut packed = TICKET.pack().unwrap();
            packed[0] = packed[0] & 0x0F | form << 4;
            assert_eq!(Ticket::unpack(&packed), Err(Refusal::Unpack));
        }
    }
}

/// To the other form and back gives the same bytes; 11 where form 1 has no such second.
#[test]
fn moved_there_and_back() {
    for tipped in [0, 1, 4_200, 43_199] {
        for (form, other) in [(1, 2), (2, 1)] {
            let ticket = timed(form, tipped / 2, tipped);
            let there = ticket.in_form(other).unwrap();
            assert_eq!(there, timed(other, tipped / 2, tipped));
            assert_ne!(there.pack(), ticket.pack());
            let back = there.in_form(form).unwrap();
            assert_eq!(back.pack(), ticket.pack());
        }
    }
    for tipped in [43_200, 65_535, 65_536, 86_399] {
        let late = timed(2, 0, tipped);
        assert_eq!(late.in_form(1), Err(Refusal::TooLate));
        assert_eq!(late.in_form(2), Ok(late));
    }
}

/// 4 for every form but 1 and 2 and for a ticket that breaks the rule, before 11; no ticket is
/// answered where the call is refused.
#[test]
fn refused_moves() {
    let none = Ticket {
        form: 0,
        truck: 0,
        shovel: 0,
        tip: 0,
        grade: 0,
        loaded: 0,
        tipped: 0,
        gross: 0,
        tare: 0,
    };
    let refused = |ticket: Ticket, form: u8, refusal: Refusal| {
        let answer = exports::UnpackedTicket {
            refused: u32::from(refusal.number()),
            ticket: none,
        };
        assert_eq!(exports::move_ticket(ticket, form), answer);
        assert_eq!(ticket.in_form(form), Err(refusal));
    };
    let late = timed(2, 0, 43_200);
    refused(late, 1, Refusal::TooLate);
    let wrong = [
        Ticket { form: 0, ..late },
        Ticket { form: 1, ..late },
        Ticket { form: 3, ..late },
        Ticket { truck: 0, ..late },
        Ticket {
            truck: 1_024,
            ..late
        },
        Ticket { shovel: 64, ..late },
        Ticket { tip: 0, ..late },
        Ticket { grade: 10, ..late },
        Ticket {
            loaded: 43_201,
            ..late
        },
        Ticket {
            tare: 250_001,
            ..late
        },
        timed(2, 0, 86_400),
    ];
    for form in 0..=255 {
        for ticket in wrong {
            refused(ticket, form, Refusal::Ticket);
        }
        if ![1, 2].contains(&form) {
            for ticket in [TICKET, late] {
                refused(ticket, form, Refusal::Ticket);
            }
        }
    }
}

/// A tape with tickets of both forms is written, opened, read, listed and counted like others.
#[test]
fn both_forms_on_one_tape() {
    let key = [1; 16];
    let second = Ticket {
        truck: 6,
        ..timed(2, 65_535, 86_399)
    };
    let tickets = [TICKET, second, timed(1, 0, 43_199), timed(2, 3_600, 4_200)];
    let mut tape = [0; 25 + 4 * 13];
    let mut writer = Writer::new();
    let mut at = writer.start(&key, HEAD, &mut tape).unwrap().bytes;
    for ticket in tickets {
        for wrong in [timed(1, 0, 43_200), timed(2, 0, 86_400), timed(3, 0, 0)] {
            assert_eq!(writer.add(wrong, &mut tape[at..]), Err(Refusal::Ticket));
        }
        at += writer.add(ticket, &mut tape[at..]).unwrap().bytes;
    }
    writer.finish(&mut tape[at..]).unwrap();

    let mut out = [0; 1_000];
    let opened = open_tape(&key, &tape, &mut out).unwrap();
    assert_eq!((opened.tickets, opened.net), (4, 560_000));
    let plain = &out[..opened.bytes()];
    assert_eq!(plain, tickets.map(|t| t.pack().unwrap()).concat());
    assert!(Reader::new(plain).eq(tickets.map(Ok)));
    assert_eq!(trucks(plain), Ok(2));
    let counts = trucks_of_two(plain, &plain[..13]).unwrap();
    assert_eq!((counts.both, counts.either), (1, 2));

    let bytes = listing(&key, &tape, &mut out).unwrap();
    let text = std::str::from_utf8(&out[..bytes]).unwrap();
    let expected = "TAPE 7 2 1\n\
        1 5 2 3 4 3600 4200 140000\n\
        2 6 2 3 4 65535 86399 140000\n\
        3 5 2 3 4 0 43199 140000\n\
        4 5 2 3 4 3600 4200 140000\n\
        TOTAL 4 560000\n";
    assert_eq!(text, expected);
}

/// The plain bytes of a tape whose tickets have these trucks.
fn plain(trucks: &[u16]) -> Vec<u8> {
    let packed = |&truck| Ticket { truck, ..TICKET }.pack().unwrap();
    trucks.iter().flat_map(packed).collect()
}

/// A truck is one bit, however often it hauled.
#[test]
fn trucks_are_bits() {
    let first = plain(&[1, 63, 64, 1_023, 64]);
    assert_eq!(trucks(&first), Ok(4));
    let mut set = [0; 16];
    set[0] = 1 << 1 | 1 << 63;
    set[1] = 1;
    set[15] = 1 << 63;
    assert_eq!(truck_set_of(&first), Ok(set));
    let mut written = [u64::MAX; 16];
    assert_eq!(exports::truck_set_of(&first, &mut written).trucks, 4);
    assert_eq!(written, set);
    let counts = |both, either, just_one| {
        Ok(TruckCounts {
            both,
            either,
            just_one,
        })
    };
    let second = plain(&[1_023, 65, 1]);
    assert_eq!(trucks_of_two(&first, &second), counts(2, 5, 3));
    assert_eq!(trucks_of_two(&second, &first), counts(2, 5, 3));
    assert_eq!(trucks_of_two(&first, &first), counts(4, 4, 0));
    assert_eq!(trucks_of_two(&first, &[]), counts(0, 4, 4));
    assert_eq!(trucks_of_two(&[], &[]), counts(0, 0, 0));
    assert_eq!(truck_set_of(&[]), Ok([0; 16]));
    let every = plain(&(1..=1_023).collect::<Vec<_>>());
    assert_eq!(trucks(&every), Ok(1_023));
    assert_eq!(trucks_of_two(&first, &every), counts(4, 1_023, 1_019));
}

/// Bytes that are not 13n with n at most 5,000, and tickets that do not unpack, are refused; of two
/// tapes with the smaller number.
#[test]
fn trucks_of_wrong_bytes() {
    let refused = |plain: &[u8], refusal: Refusal| {
        assert_eq!(trucks(plain), Err(refusal));
        assert_eq!(truck_set_of(plain), Err(refusal));
        let answer = exports::TruckCount {
            refused: u32::from(refusal.number()),
            trucks: 0,
        };
        assert_eq!(exports::trucks(plain), answer);
        let mut set = [0x5A5A_5A5A_5A5A_5A5A; 16];
        assert_eq!(exports::truck_set_of(plain, &mut set), answer);
        assert_eq!(set, [0x5A5A_5A5A_5A5A_5A5A; 16]);
    };
    let right = plain(&[7; 5_000]);
    assert_eq!(trucks(&right), Ok(1));
    let long = plain(&[7; 5_001]);
    let wrong_sizes = (0..=64).filter(|size| size % 13 != 0);
    for size in wrong_sizes.chain([64_999, 65_001, 65_013]) {
        refused(&long[..size], Refusal::Size);
        refused(&vec![0; size], Refusal::Size);
    }
    let mut bad = right.clone();
    bad[64_999] |= 1;
    refused(&bad, Refusal::Unpack);
    refused(&[0; 13], Refusal::Unpack);

    let (size, unpack) = (Err(Refusal::Size), Err(Refusal::Unpack));
    let short = &right[1..];
    assert_eq!(trucks_of_two(&right, short), size);
    assert_eq!(trucks_of_two(short, &right), size);
    assert_eq!(trucks_of_two(short, short), size);
    assert_eq!(trucks_of_two(&bad, short), size);
    assert_eq!(trucks_of_two(short, &bad), size);
    assert_eq!(trucks_of_two(&right, &bad), unpack);
    assert_eq!(trucks_of_two(&bad, &right), unpack);
    assert_eq!(trucks_of_two(&bad, &bad), unpack);
    let answer = exports::TruckCounts {
        refused: 8,
        both: 0,
        either: 0,
        just_one: 0,
    };
    assert_eq!(exports::trucks_of_two(&bad, &right), answer);
}

/// Receptions that do not part: all of the longer is handed back, in the buffer of its mast.
#[track_caller]
fn together(first: &[u8], second: &[u8], mast: u32) {
    let answer = exports::Parted {
        refused: 0,
        place: 0,
    };
    assert_eq!(exports::parting(first, second), answer);
    assert_eq!(parting(first, second), Ok(()));
    let heard = [first, second][mast as usize - 1];
    let part = exports::Reception {
        mast,
        bytes: heard.len() as u64,
    };
    assert_eq!(exports::longer(first, second), part);
    let handed_back = longer(first, second);
    assert_eq!(handed_back.as_ptr(), heard.as_ptr());
    assert_eq!(handed_back.len(), heard.len());
}

/// Receptions that part, in both orders: nothing is handed back, at the start of the first.
#[track_caller]
fn parted(one: &[u8], other: &[u8], place: usize) {
    for (first, second) in [(one, other), (other, one)] {
        let answer = exports::Parted {
            refused: 10,
            place: place as u64,
        };
        assert_eq!(exports::parting(first, second), answer);
        assert_eq!(parting(first, second), Err(Parted { place }));
        let part = exports::Reception { mast: 1, bytes: 0 };
        assert_eq!(exports::longer(first, second), part);
        let handed_back = longer(first, second);
        assert_eq!(handed_back.as_ptr(), first.as_ptr());
        assert_eq!(handed_back.len(), 0);
    }
}

/// One is the beginning of the other: the longer is handed back, and of two equal ones the first.
#[test]
fn receptions_that_do_not_part() {
    let one: Vec<u8> = (0..=255).cycle().take(70_000).collect();
    let other = one.clone();
    together(&[], &[], 1);
    together(&one[..0], &other[..0], 1);
    together(&[7], &[7], 1);
    for length in [1, 2, 24, 25, 38, 65_024, 65_025, 65_536, 70_000] {
        together(&one[..length], &other[..length], 1);
        together(&one[..length], &one[..length], 1);
        together(&one[..length], &[], 1);
        together(&[], &one[..length], 2);
        together(&one[..length], &other[..length - 1], 1);
        together(&one[..length - 1], &other[..length], 2);
        together(&one, &other[..length], 1);
        if length < one.len() {
            together(&one[..length], &other, 2);
        }
    }
    // parts of one buffer, which overlap
    let buffer = [5, 6, 5, 6, 5, 7];
    together(&buffer[..3], &buffer[2..4], 1);
    together(&buffer[2..4], &buffer[..3], 2);
    together(&buffer[..3], &buffer[2..5], 1);
}

/// The place is that of the first byte that differs, whatever comes behind it and however long the
/// receptions are.
#[test]
fn receptions_that_part() {
    let one: Vec<u8> = (0..=255).cycle().take(70_000).collect();
    for place in [0, 1, 7, 8, 255, 256, 65_024, 65_535, 65_536, 69_999] {
        for change in [1, 0x80, 0xFF] {
            let mut other = one.clone();
            other[place] ^= change;
            parted(&one, &other, place);
            parted(&one[..=place], &other[..=place], place);
            parted(&one[..=place], &other, place);
            parted(&one, &other[..=place], place);
            together(&one[..place], &other, 2);
            together(&one, &other[..place], 1);
            for byte in &mut other[place..] {
                *byte ^= 0x55;
            }
            parted(&one, &other, place);
        }
    }
    parted(&[7], &[6], 0);
    // a byte lost on the way moves those behind it
    parted(&one[..200], &[&one[..9], &one[10..]].concat(), 9);
    let buffer = [5, 6, 5, 6, 5, 7];
    parted(&buffer[..4], &buffer[2..], 3);
    parted(&buffer, &buffer[1..], 0);
}

/// A tape that one mast heard whole opens from what is handed back, in whatever order they are.
#[test]
fn the_longer_reception_opens() {
    let key = [1; 16];
    let mut tape = [0; 38];
    let mut writer = Writer::new();
    writer.start(&key, HEAD, &mut tape).unwrap();
    writer.add(TICKET, &mut tape[9..]).unwrap();
    writer.finish(&mut tape[22..]).unwrap();
    let open = |heard: &[u8]| open_tape(&key, heard, &mut [0; 13]).map(|opened| opened.net);
    for length in 0..=38 {
        assert_eq!(open(longer(&tape, &tape[..length])), Ok(140_000));
        assert_eq!(open(longer(&tape[..length], &tape)), Ok(140_000));
        if length < 38 {
            let cut = longer(&tape[..length], &tape[..20]);
            let refusal = if cut.len() == 25 {
                Refusal::Tag
            } else {
                Refusal::Size
            };
            assert_eq!(open(cut), Err(refusal));
        }
    }
    // what both heard wrongly does not part, and does not open
    let mut wrong = tape;
    wrong[30] ^= 1;
    assert_eq!(open(longer(&wrong, &wrong[..36])), Err(Refusal::Tag));
    assert_eq!(open(longer(&wrong, &tape)), Err(Refusal::Size));
}

/// A parting is an error of its own, and a refusal where only its number is wanted.
#[test]
fn partings_as_errors() {
    fn first_mast<'a>(first: &'a [u8], second: &[u8]) -> Result<&'a [u8], Refusal> {
        parting(first, second)?;
        Ok(first)
    }
    assert_eq!(first_mast(b"ab", b"a"), Ok(&b"ab"[..]));
    assert_eq!(first_mast(b"ab", b"ba"), Err(Refusal::Parted));
    let parted = parting(b"tape", b"tale").unwrap_err();
    let error: &dyn Error = &parted;
    let expected = "two receptions part at byte 2 (refusal 10)";
    assert_eq!(error.to_string(), expected);
    assert_eq!(format!("{parted:?}"), "Parted { place: 2 }");
}

/// The plain bytes of a tape whose tickets have these trucks and tipped times; every second ticket
/// has form 2, and so has one tipped after second 43,199.
fn tipped(tickets: &[(u16, u32)]) -> Vec<u8> {
    let packed = |(i, &(truck, tipped)): (usize, &(u16, u32))| {
        let form = if i % 2 == 1 || tipped > 43_199 { 2 } else { 1 };
        let ticket = Ticket {
            truck,
            ..timed(form, 0, tipped)
        };
        ticket.pack().unwrap()
    };
    tickets.iter().enumerate().flat_map(packed).collect()
}

/// Positions, from 1, of the tickets of a tape that are in none of the pairs.
fn left_over(plain: &[u8], in_pairs: impl Iterator<Item = u32>) -> Vec<u32> {
    let mut left: Vec<u32> = (1..).take(plain.len() / 13).collect();
    for position in in_pairs {
        left.retain(|&other| other != position);
    }
    left
}

/// Two tapes have these pairs: with outputs just so long, longer, and each too short.
#[track_caller]
fn paired(first: &[u8], second: &[u8], pairs: &[[u32; 2]]) {
    let left_first = left_over(first, pairs.iter().map(|pair| pair[0]));
    let left_second = left_over(second, pairs.iter().map(|pair| pair[1]));
    let lengths = [pairs.len(), left_first.len(), left_second.len()];
    let outputs =
        |[pairs, first, second]: [usize; 3]| (vec![[7; 2]; pairs], vec![7; first], vec![7; second]);
    for more in [0, 1, 3] {
        let mut out = outputs(lengths.map(|length| length + more));
        let answer = pair_tapes(first, second, &mut out.0, &mut out.1, &mut out.2);
        let wanted = Paired {
            pairs: lengths[0],
            left_first: lengths[1],
            left_second: lengths[2],
        };
        assert_eq!(answer, Ok(wanted));
        assert_eq!(out.0, [pairs, &vec![[7; 2]; more]].concat());
        assert_eq!(out.1, [left_first.clone(), vec![7; more]].concat());
        assert_eq!(out.2, [left_second.clone(), vec![7; more]].concat());
    }
    for short in (0..3).filter(|&short| lengths[short] > 0) {
        let mut room = lengths.map(|length| length + 1);
        room[short] -= 2;
        let mut out = outputs(room);
        let answer = pair_tapes(first, second, &mut out.0, &mut out.1, &mut out.2);
        assert_eq!(answer, Err(Refusal::Output));
        assert_eq!(out, outputs(room));
    }
    if !pairs.is_empty() {
        // the library counts numbers, and one may be missing of a pair
        let mut numbers = vec![7; 2 * pairs.len() - 1];
        let (_, mut left_first, mut left_second) = outputs(lengths);
        let left = (&mut left_first, &mut left_second);
        let answer = exports::pair_tapes(first, second, &mut numbers, left.0, left.1);
        assert_eq!(answer.refused, 6);
        assert!(numbers.iter().all(|&number| number == 7));
    }
    #[cfg(feature = "alloc")]
    {
        let pairing = haul_tape::pair_tapes_to_vecs(first, second).unwrap();
        assert_eq!(pairing.pairs, pairs);
        assert_eq!(pairing.left_first, left_first);
        assert_eq!(pairing.left_second, left_second);
    }
}

/// Tickets of one truck are paired up to 120 seconds apart, whichever clock is ahead.
#[test]
fn pairs_by_truck_and_time() {
    for (one, other, are) in [
        (1_000, 1_000, true),
        (1_000, 1_120, true),
        (1_000, 1_121, false),
        (0, 120, true),
        (0, 121, false),
        (43_199, 43_319, true),
        (86_279, 86_399, true),
        (86_278, 86_399, false),
    ] {
        let (one, other) = (tipped(&[(5, one)]), tipped(&[(5, other)]));
        let pairs: &[[u32; 2]] = if are { &[[1, 1]] } else { &[] };
        paired(&one, &other, pairs);
        paired(&other, &one, pairs);
    }
    paired(&tipped(&[(5, 1_000)]), &tipped(&[(6, 1_000)]), &[]);
    paired(&[], &[], &[]);
    let tape = tipped(&[(1, 100), (1_023, 100), (1, 100)]);
    paired(&tape, &[], &[]);
    paired(&[], &tape, &[]);
    paired(&tape, &tape, &[[1, 1], [2, 2], [3, 3]]);
}

/// The first tape's tickets, in tape order, take the free partner that comes first on the second.
#[test]
fn pairs_in_tape_order() {
    let one = tipped(&[(5, 1_010)]);
    let two = tipped(&[(5, 1_000), (5, 1_010)]);
    paired(&two, &one, &[[1, 1]]);
    paired(&one, &two, &[[1, 1]]);
    let equal = tipped(&[(5, 1_000); 3]);
    paired(&equal, &tipped(&[(5, 880); 2]), &[[1, 1], [2, 2]]);
    // a nearer partner comes behind, and taking it would leave two without one
    let first = tipped(&[(5, 1_000), (5, 1_100)]);
    let second = tipped(&[(5, 900), (5, 1_010)]);
    paired(&first, &second, &[[1, 1], [2, 2]]);
    // times may fall from one truck to another
    let first = tipped(&[(5, 1_000), (6, 500), (7, 900), (5, 1_300)]);
    let second = tipped(&[(7, 1_000), (6, 400), (5, 700), (5, 1_000)]);
    paired(&first, &second, &[[1, 4], [2, 2], [3, 1]]);
    paired(&second, &first, &[[1, 3], [2, 2], [4, 1]]);
}

/// As many tickets as a tape holds, all of one truck or of many.
#[test]
fn pairs_of_the_longest_tapes() {
    for trucks in [1, 1_023] {
        let tape = |start: u32, tickets: u32| {
            let tickets = (0..tickets).map(|i| (1 + (i % trucks) as u16, start + 8 * i));
            tipped(&tickets.collect::<Vec<_>>())
        };
        let all: Vec<[u32; 2]> = (1..=5_000).map(|i| [i, i]).collect();
        paired(&tape(0, 5_000), &tape(120, 5_000), &all);
        paired(&tape(120, 5_000), &tape(0, 5_000), &all);
        paired(&tape(0, 4_999), &tape(0, 5_000), &all[..4_999]);
        paired(&tape(0, 5_000), &tape(46_000, 5_000), &[]);
    }
}

/// 2, 8 and 12 are each tried on both tapes before the next, and 6 comes last; no output is written.
#[test]
fn tapes_that_are_not_paired() {
    let right = tipped(&[(5, 1_000), (6, 500), (5, 1_000)]);
    let falling = tipped(&[(5, 1_000), (6, 500), (5, 999)]);
    let mut bad = falling.clone();
    bad[38] |= 1;
    let long = tipped(&[(5, 1_000); 5_001]);
    let tapes = [
        (&right[..], None),
        (&falling, Some(Refusal::TimesFall)),
        (&bad, Some(Refusal::Unpack)),
        (&bad[..38], Some(Refusal::Size)),
        (&right[..12], Some(Refusal::Size)),
        (&long, Some(Refusal::Size)),
        (&long[..64_999], Some(Refusal::Size)),
    ];
    for (first, one) in tapes {
        for (second, other) in tapes {
            let smaller = [one, other]
                .into_iter()
                .flatten()
                .min_by_key(|refusal| refusal.number());
            for room in [0, 3] {
                let mut out = (vec![[7; 2]; room], vec![7; room], vec![7; room]);
                let before = out.clone();
                let refusal = match smaller {
                    Some(refusal) => refusal,
                    None if room == 0 => Refusal::Output,
                    None => continue,
                };
                let answer = pair_tapes(first, second, &mut out.0, &mut out.1, &mut out.2);
                assert_eq!(answer, Err(refusal));
                let pairs = out.0.as_flattened_mut();
                let answer = exports::pair_tapes(first, second, pairs, &mut out.1, &mut out.2);
                let wanted = exports::Paired {
                    refused: u32::from(refusal.number()),
                    pairs: 0,
                    left_first: 0,
                    left_second: 0,
                };
                assert_eq!(answer, wanted);
                assert_eq!(out, before);
            }
            #[cfg(feature = "alloc")]
            {
                let answer = haul_tape::pair_tapes_to_vecs(first, second);
                assert_eq!(answer.err(), smaller);
            }
        }
    }
}

#[test]
fn numbers_of_refusals() {
    for number in 1..=12 {
        let refusal = Refusal::from_number(number).unwrap();
        assert_eq!(u32::from(refusal.number()), number);
        let error: &dyn Error = &refusal;
        assert!(error.to_string().ends_with(&format!("(refusal {number})")));
    }
    assert_eq!(Refusal::from_number(0), None);
    assert_eq!(Refusal::from_number(9), Some(Refusal::TagLength));
    assert_eq!(Refusal::from_number(10), Some(Refusal::Parted));
    assert_eq!(Refusal::from_number(11), Some(Refusal::TooLate));
    assert_eq!(Refusal::from_number(12), Some(Refusal::TimesFall));
    assert_eq!(Refusal::from_number(13), None);
}

/// What is secret, and what was opened, is not shown.
#[test]
fn debug_shows_no_secrets() {
    let mut sealing = Sealing::new();
    sealing.begin(&[1; 16], &[2; 16]).unwrap();
    assert_eq!(format!("{sealing:?}"), "Sealing { .. }");
    let mut checking = Checking::new();
    checking.begin(&[1; 16], &[2; 16]).unwrap();
    assert_eq!(format!("{checking:?}"), "Checking { .. }");
    let mut writer = Writer::new();
    writer.start(&[1; 16], HEAD, &mut [0; 9]).unwrap();
    assert_eq!(format!("{writer:?}"), "Writer { .. }");
    let reader = Reader::new(&[5; 26]);
    assert_eq!(format!("{reader:?}"), "Reader { position: 0, .. }");
}

/// Sessions and writers may go to another thread, and have no more than the library's words.
#[test]
fn sessions_are_plain_words() {
    fn sendable<T: Send + Sync>(bytes: usize) {
        assert_eq!(size_of::<T>(), bytes);
    }
    sendable::<Sealing>(88);
    sendable::<Checking>(88);
    sendable::<Writer>(96);
    sendable::<exports::Session>(88);
    sendable::<exports::Writer>(96);
    sendable::<Ticket>(24);
    sendable::<Head>(12);
    sendable::<exports::UnpackedTicket>(28);
    sendable::<exports::TruckCount>(8);
    sendable::<exports::TruckCounts>(16);
    sendable::<TruckCounts>(12);
    sendable::<exports::Parted>(16);
    sendable::<exports::Reception>(16);
    sendable::<Parted>(8);
    sendable::<exports::Paired>(32);
    sendable::<Paired>(24);
}

/// A text over the limit is refused before a vector of its length is made.
#[cfg(feature = "alloc")]
#[test]
fn vectors_and_limits() {
    let long = vec![3; 65_537 + 16];
    let (key, nonce) = ([1; 16], [2; 16]);
    let sealed = message::seal_to_vec(&key, &nonce, &[], &long[..65_536]).unwrap();
    let text = message::open_to_vec(&key, &nonce, &[], &sealed).unwrap();
    assert_eq!(text, long[..65_536]);
    let answer = message::seal_to_vec(&key, &nonce, &[], &long[..65_537]);
    assert_eq!(answer, Err(Refusal::Limit));
    let answer = message::open_to_vec(&key, &nonce, &[], &long);
    assert_eq!(answer, Err(Refusal::Limit));
    let answer = message::open_to_vec(&key, &nonce, &[], &long[..15]);
    assert_eq!(answer, Err(Refusal::Size));

    for length in 8..=16 {
        let seal = |text: &[u8]| message::seal_tag_to_vec(&key, &nonce, &[], text, length);
        let open = |sealed: &[u8]| message::open_tag_to_vec(&key, &nonce, &[], sealed, length);
        for bytes in [0, 1, 65_536] {
            let sealed = seal(&long[..bytes]).unwrap();
            assert_eq!(sealed.len(), bytes + length);
            assert_eq!(open(&sealed).unwrap(), long[..bytes]);
        }
        assert_eq!(seal(&long[..65_537]), Err(Refusal::Limit));
        assert_eq!(open(&long[..65_537 + length]), Err(Refusal::Limit));
        assert_eq!(open(&long[..65_536 + length]), Err(Refusal::Tag));
        assert_eq!(open(&long[..length - 1]), Err(Refusal::Size));
    }
    for length in [0, 7, 17, usize::MAX] {
        for bytes in [0, 1, 65_537] {
            let answer = message::seal_tag_to_vec(&key, &nonce, &[], &long[..bytes], length);
            assert_eq!(answer, Err(Refusal::TagLength));
            let answer = message::open_tag_to_vec(&key, &nonce, &[], &long[..bytes], length);
            assert_eq!(answer, Err(Refusal::TagLength));
        }
    }
}
