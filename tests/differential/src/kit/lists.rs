//! Lists of calls on sessions and writers.

use super::{both_forms, broken_forms, broken_heads, broken_tickets};
use super::{head_fields, hex, line, star, ticket_fields, File};
use super::{EMPTY_TRIPS, FORM_2, GREATEST, HEAD, LATE, SMALLEST, TARE_ABOVE_GROSS, TICKET};
use crate::both::{self, Ran};
use crate::calls::{SessionCall, Sessions, WriterCall, Writers};
use crate::random::{turned, Random};
use haul_tape::Ticket;
use haul_tape_twin::cipher;
use haul_tape_twin::machine::{Done, Kind};
use SessionCall::{Begin, BeginTag, CheckClose, CheckText, Data, SealClose, SealText};
use WriterCall::{Add, Finish, Start};

/// A byte field: by rule if it is long.
fn field(bytes: &[u8]) -> String {
    if bytes.len() > 1_000 {
        assert_eq!(bytes, super::by_rule(bytes.len()));
        return star(bytes.len());
    }
    hex(bytes)
}

fn session_line(call: &SessionCall) -> String {
    match call {
        Begin { key, nonce } => line(&[&"begin", &field(key), &field(nonce)]),
        BeginTag {
            key,
            nonce,
            tag_bytes,
        } => line(&[&"begin_tag", &field(key), &field(nonce), tag_bytes]),
        Data { piece } => line(&[&"data", &field(piece)]),
        SealText { piece, room } => line(&[&"seal_text", &field(piece), room]),
        SealClose { room } => line(&[&"seal_close", room]),
        CheckText { piece } => line(&[&"check_text", &field(piece)]),
        CheckClose { tag } => line(&[&"check_close", &field(tag)]),
    }
}

fn writer_line(call: &WriterCall) -> String {
    match call {
        Start { key, head, room } => line(&[&"start", &field(key), &head_fields(*head), room]),
        Add { ticket, room } => line(&[&"add", &ticket_fields(*ticket), room]),
        Finish { room } => line(&[&"finish", room]),
    }
}

/// An answer; `written` is the field of the bytes that the call wrote.
fn answered(ran: &Ran<Done>, written: impl FnOnce(&[u8]) -> String) -> String {
    match ran.answer {
        Ok(done) => {
            let out = written(&ran.out[..done.bytes]);
            line(&[&"done", &done.bytes, &done.steps, &out])
        }
        Err(number) => line(&[&"refused", &number]),
    }
}

/// Lines of the file, list after list.
pub(super) struct Lines(pub(super) Vec<String>);

impl Lines {
    pub(super) fn session(&mut self, title: &str, kind: Kind, calls: &[SessionCall]) {
        self.0.push(format!("\n# {title}"));
        self.0.push(match kind {
            Kind::Sealing => "list sealing".to_string(),
            Kind::Checking => "list checking".to_string(),
        });
        let mut sessions = Sessions::fresh(kind);
        let mut begun: Option<(&[u8], &[u8])> = None;
        for call in calls {
            let ran = sessions.call(call);
            if let (Begin { key, nonce } | BeginTag { key, nonce, .. }, Ok(_)) = (call, &ran.answer)
            {
                begun = Some((key, nonce));
            }
            // bytes too many to print: the tag of a message that has them as its data
            let written = |bytes: &[u8]| match begun {
                Some((key, nonce)) if bytes.len() > 1_000 => {
                    format!("check:{}", hex(&both::seal(key, nonce, bytes, &[], 16).out))
                }
                _ => hex(bytes),
            };
            let answer = answered(&ran, written);
            self.0.push(format!("{} = {answer}", session_line(call)));
        }
    }

    fn writer(&mut self, title: &str, calls: &[WriterCall]) {
        let mut writers = self.fresh_writer(title);
        self.go_on(&mut writers, calls);
    }

    fn fresh_writer(&mut self, title: &str) -> Writers {
        self.0.push(format!("\n# {title}"));
        self.0.push("list writer".to_string());
        Writers::fresh()
    }

    fn go_on(&mut self, writers: &mut Writers, calls: &[WriterCall]) {
        for call in calls {
            let answer = answered(&writers.call(call), hex);
            self.0.push(format!("{} = {answer}", writer_line(call)));
        }
    }

    /// Adds a ticket again and again, until the writer has so many, and gives the last answer.
    fn fill(&mut self, writers: &mut Writers, tickets: u64, ticket: Ticket) {
        let mut last = None;
        while writers.twin().tickets() < tickets {
            let ran = writers.call(&Add { ticket, room: 13 });
            let steps = 2_120 + 104 * writers.twin().tickets();
            assert_eq!(ran.answer, Ok(Done { bytes: 13, steps }));
            last = Some(ran);
        }
        let answer = answered(&last.expect("a ticket is added"), hex);
        let fields = ticket_fields(ticket);
        self.0.push(format!("fill {tickets} {fields} = {answer}"));
    }
}

pub(super) fn calls() -> File {
    let mut lines = Lines(vec!["# call arguments = answer".to_string()]);
    sessions(&mut lines);
    writers(&mut lines);
    File::text("calls.txt", lines.0)
}

fn sessions(lines: &mut Lines) {
    let mut random = Random::new(5);
    let (key, nonce) = (random.bytes(16), random.bytes(16));
    let begin = || Begin {
        key: key.clone(),
        nonce: nonce.clone(),
    };
    let data = |piece: &[u8]| Data {
        piece: piece.to_vec(),
    };
    let seal = |piece: &[u8]| SealText {
        piece: piece.to_vec(),
        room: piece.len(),
    };
    let check = |piece: &[u8]| CheckText {
        piece: piece.to_vec(),
    };
    let close = || SealClose { room: 16 };
    let give = |tag: &[u8]| CheckClose { tag: tag.to_vec() };

    lines.session("Nothing taken.", Kind::Sealing, &[begin(), close()]);
    lines.session(
        "An empty text ends the data.",
        Kind::Sealing,
        &[begin(), seal(&[]), data(&[1]), seal(&[]), close()],
    );

    // One message, cut in several ways.
    let (head, text) = (random.bytes(22), random.bytes(90));
    let sealed = both::seal(&key, &nonce, &head, &text, 106).out;
    let (ciphertext, tag) = sealed.split_at(90);
    let cuts: [(&str, &[usize], &[usize]); 5] = [
        ("A message in one piece.", &[22], &[90]),
        ("The same in two.", &[9, 13], &[45, 45]),
        (
            "The same in bytes and words.",
            &[1, 1, 4, 16],
            &[1, 2, 3, 4, 5, 7, 8, 60],
        ),
        (
            "The same, with empty pieces.",
            &[0, 22, 0, 0],
            &[0, 0, 64, 0, 26, 0],
        ),
        ("The same, around 32.", &[3, 19], &[31, 33, 26]),
    ];
    for (title, data_cuts, text_cuts) in cuts {
        let pieces = |mut bytes: &[u8], cuts: &[usize]| -> Vec<Vec<u8>> {
            let mut pieces = Vec::new();
            for &length in cuts {
                let (piece, rest) = bytes.split_at(length);
                pieces.push(piece.to_vec());
                bytes = rest;
            }
            pieces
        };
        let mut sealing = vec![begin()];
        sealing.extend(pieces(&head, data_cuts).iter().map(|piece| data(piece)));
        let mut checking = sealing.clone();
        sealing.extend(pieces(&text, text_cuts).iter().map(|piece| seal(piece)));
        sealing.push(close());
        lines.session(title, Kind::Sealing, &sealing);
        checking.extend(
            pieces(ciphertext, text_cuts)
                .iter()
                .map(|piece| check(piece)),
        );
        checking.push(give(tag));
        lines.session(title, Kind::Checking, &checking);
    }

    lines.session(
        "Refused calls between those of a message, sealing.",
        Kind::Sealing,
        &[
            data(&head),
            seal(&text),
            close(),
            check(&[]),
            give(tag),
            Begin {
                key: key[1..].to_vec(),
                nonce: nonce.clone(),
            },
            Begin {
                key: key.clone(),
                nonce: vec![0; 17],
            },
            begin(),
            begin(),
            data(&head),
            data(&super::by_rule(65_537)),
            data(&super::by_rule(65_515)),
            check(&text),
            give(tag),
            SealText {
                piece: text.clone(),
                room: 89,
            },
            seal(&text[..40]),
            data(&[]),
            SealText {
                piece: text[40..].to_vec(),
                room: 0,
            },
            SealText {
                piece: super::by_rule(65_497),
                room: 0,
            },
            SealText {
                piece: text[40..].to_vec(),
                room: 80,
            },
            begin(),
            SealClose { room: 0 },
            SealClose { room: 15 },
            SealClose { room: 40 },
            close(),
            seal(&[]),
            data(&[]),
            begin(),
        ],
    );
    lines.session(
        "Refused calls between those of a message, checking.",
        Kind::Checking,
        &[
            check(ciphertext),
            give(tag),
            Begin {
                key: vec![],
                nonce: vec![],
            },
            begin(),
            data(&head),
            seal(&text),
            close(),
            check(&ciphertext[..50]),
            data(&[]),
            check(&super::by_rule(65_487)),
            check(&ciphertext[50..]),
            give(&tag[..15]),
            give(&sealed),
            give(tag),
            give(tag),
            check(&[]),
        ],
    );
    for bit in [0, 7, 120, 127] {
        lines.session(
            "A tag with one bit turned closes.",
            Kind::Checking,
            &[
                begin(),
                data(&head),
                check(ciphertext),
                give(&turned(tag, bit)),
                give(tag),
            ],
        );
    }

    let most = super::by_rule(65_536);
    lines.session(
        "As much data as there may be.",
        Kind::Sealing,
        &[
            begin(),
            data(&most),
            data(&[]),
            data(&[1]),
            seal(&[1]),
            close(),
        ],
    );
    lines.session(
        "As much text as there may be.",
        Kind::Checking,
        &[
            begin(),
            data(&most[..1_001]),
            check(&most),
            check(&[]),
            check(&[1]),
            give(tag),
        ],
    );
    lines.session(
        "The same in sealing, in pieces.",
        Kind::Sealing,
        &[
            begin(),
            data(&head),
            seal(&most[..65_535]),
            seal(&[1, 2]),
            SealText {
                piece: vec![1],
                room: 0,
            },
            seal(&[1]),
            seal(&[]),
            SealText {
                piece: vec![1],
                room: 0,
            },
            close(),
        ],
    );
    // the tag with which these bytes, as ciphertext, are good
    let (as_data, as_text) = (
        [&most[..65_535], &[1]].concat(),
        [&most[..65_535], &[2]].concat(),
    );
    let (_, right) = cipher::open(
        key[..].try_into().expect("16 bytes"),
        nonce[..].try_into().expect("16 bytes"),
        &as_data,
        &as_text,
        16,
    );
    lines.session(
        "As much data and as much text as there may be, in pieces.",
        Kind::Checking,
        &[
            begin(),
            data(&most[..65_535]),
            data(&[1, 2]),
            data(&[1]),
            data(&[1]),
            check(&most[..65_535]),
            check(&[1, 2]),
            check(&[2]),
            check(&[1]),
            give(&right),
        ],
    );

    let too_much = super::by_rule(65_537);
    let much = SealText {
        piece: too_much.clone(),
        room: 0,
    };
    lines.session(
        "The smallest of several numbers, sealing.",
        Kind::Sealing,
        &[
            data(&too_much),
            much.clone(),
            SealClose { room: 0 },
            check(&too_much),
            give(&[]),
            begin(),
            Begin {
                key: vec![],
                nonce: vec![],
            },
            check(&too_much),
            give(&[]),
            much.clone(),
            seal(&[1]),
            data(&too_much),
            close(),
            much,
            SealClose { room: 0 },
        ],
    );
    lines.session(
        "The smallest of several numbers, checking.",
        Kind::Checking,
        &[
            check(&too_much),
            give(&[]),
            begin(),
            SealText {
                piece: too_much.clone(),
                room: 0,
            },
            SealClose { room: 0 },
            give(&[0; 17]),
            give(&[0; 16]),
            give(&[0; 16]),
            give(&[]),
        ],
    );
}

fn writers(lines: &mut Lines) {
    let mut random = Random::new(6);
    let key = random.bytes(16);
    let start = || Start {
        key: key.clone(),
        head: HEAD,
        room: 9,
    };
    let add = |ticket| Add { ticket, room: 13 };
    let finish = || Finish { room: 16 };

    lines.writer("No ticket.", &[start(), finish()]);
    lines.writer("Document 01's ticket.", &[start(), add(TICKET), finish()]);
    let mut calls = vec![start(), add(SMALLEST), add(GREATEST)];
    calls.extend((0..6).map(|_| add(random.ticket_of_form(1))));
    calls.push(finish());
    lines.writer("Eight tickets.", &calls);
    let [first, second, third] = EMPTY_TRIPS;
    lines.writer(
        "Trips back empty. A tare above the gross is 4.",
        &[
            start(),
            add(TARE_ABOVE_GROSS),
            add(first),
            add(second),
            add(TICKET),
            add(TARE_ABOVE_GROSS),
            add(third),
            finish(),
        ],
    );

    let mut calls = vec![
        add(TICKET),
        finish(),
        Start {
            key: key[1..].to_vec(),
            head: HEAD,
            room: 9,
        },
        Start {
            key: vec![],
            head: broken_heads()[0],
            room: 0,
        },
    ];
    for head in broken_heads() {
        let key = key.clone();
        calls.push(Start { key, head, room: 9 });
    }
    calls.push(Start {
        key: key.clone(),
        head: broken_heads()[0],
        room: 0,
    });
    calls.push(Start {
        key: key.clone(),
        head: HEAD,
        room: 8,
    });
    calls.push(Start {
        key: key.clone(),
        head: HEAD,
        room: 30,
    });
    calls.push(start());
    calls.extend(broken_tickets().into_iter().map(add));
    calls.push(Add {
        ticket: broken_tickets()[0],
        room: 0,
    });
    calls.push(Add {
        ticket: TICKET,
        room: 12,
    });
    calls.push(Add {
        ticket: TICKET,
        room: 30,
    });
    calls.push(Finish { room: 15 });
    calls.push(Finish { room: 30 });
    calls.extend([finish(), add(TICKET), start()]);
    lines.writer("Refused calls between those of a tape.", &calls);

    let (broken, no_head) = (broken_tickets()[0], broken_heads()[0]);
    let add_into = |ticket, room| Add { ticket, room };
    let bad_start = Start {
        key: vec![],
        head: no_head,
        room: 0,
    };
    lines.writer(
        "1 before all others.",
        &[
            add_into(broken, 0),
            Finish { room: 0 },
            start(),
            bad_start.clone(),
            finish(),
            bad_start.clone(),
            add_into(broken, 0),
            Finish { room: 0 },
        ],
    );

    let mut writers = lines.fresh_writer("5,000 tickets. The 5,001st is 5: after 4, and before 6.");
    lines.go_on(&mut writers, &[start(), add(SMALLEST)]);
    lines.fill(&mut writers, 4_999, TICKET);
    lines.go_on(
        &mut writers,
        &[
            add_into(TICKET, 12),
            add(GREATEST),
            add(TICKET),
            add(first),
            add(broken),
            add_into(broken, 0),
            add_into(TICKET, 12),
            add_into(TICKET, 0),
            bad_start,
            Finish { room: 15 },
            finish(),
            add(TICKET),
        ],
    );

    lines.writer(
        "Document 01's ticket in form 2.",
        &[start(), add(FORM_2), finish()],
    );
    let mut calls = vec![start()];
    calls.extend(both_forms().into_iter().map(add));
    calls.push(finish());
    lines.writer("Both forms.", &calls);
    let mut calls = vec![start(), add(TICKET)];
    calls.extend(broken_forms().into_iter().map(add));
    calls.push(add_into(broken_forms()[1], 0));
    calls.push(add_into(LATE, 12));
    calls.extend([add(LATE), finish(), add(FORM_2)]);
    lines.writer("Tickets that break the rule in form 2.", &calls);
}
