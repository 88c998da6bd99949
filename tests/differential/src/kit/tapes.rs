//! Tapes with their listings.

use super::{both_forms, EMPTY_TRIPS, FORM_2, GREATEST, HEAD, SMALLEST, TICKET};
use super::{head_fields, hex, pack_anyway, pack_head_anyway, ticket_fields, File};
use crate::both;
use crate::calls::write_tape;
use crate::random::{turned, Random};
use haul_tape::{Head, Ticket};
use haul_tape_twin::tape::nonce_of;

/// The three files of a tape: its bytes, what it holds, and its listing.
fn files(name: &str, key: &[u8], tape: Vec<u8>, holds: Vec<String>) -> [File; 3] {
    let listing = both::listing(key, &tape);
    let mut lines = vec![format!("key {}", hex(key))];
    lines.extend(holds);
    [
        File {
            name: format!("tapes/{name}.tape"),
            bytes: tape,
        },
        File::text(&format!("tapes/{name}.txt"), lines),
        File {
            name: format!("tapes/{name}.list"),
            bytes: listing,
        },
    ]
}

fn good(name: &str, key: &[u8], head: Head, tickets: &[Ticket]) -> [File; 3] {
    let tape = write_tape(key, head, tickets);
    let room = 13 * tickets.len();
    let opened = both::open_tape(key, &tape, room);
    let (n, _) = opened.answer.expect("the tape opens");
    assert_eq!(n, tickets.len() as u64);
    assert_eq!(both::read(&opened.out), (tickets.to_vec(), None));

    let mut holds = vec![format!("head {}", head_fields(head))];
    let lines = tickets
        .iter()
        .map(|&t| format!("ticket {}", ticket_fields(t)));
    holds.extend(lines);
    files(name, key, tape, holds)
}

fn refused(name: &str, key: &[u8], tape: Vec<u8>) -> [File; 3] {
    let number = both::open_tape(key, &tape, tape.len())
        .answer
        .expect_err("the tape does not open");
    let name = format!("refused_{number}_{name}");
    files(&name, key, tape, vec![format!("refused {number}")])
}

/// A tape with these bytes as its head and these as its plain tickets, whatever they are.
pub fn sealed(key: &[u8], head: [u8; 9], plain: &[u8]) -> Vec<u8> {
    let sealed = both::seal(key, &nonce_of(&head), &head, plain, plain.len() + 16);
    sealed.answer.expect("the message is sealed");
    [&head, &sealed.out[..]].concat()
}

/// Of a tape of the kit, by its name: the key as a field, and the tape's bytes.
pub(super) fn key_and_tape(name: &str, files: &[File]) -> (String, Vec<u8>) {
    let bytes = |ending: &str| {
        let name = format!("tapes/{name}.{ending}");
        let file = files.iter().find(|file| file.name == name);
        file.expect("a tape of the kit").bytes.clone()
    };
    let holds = String::from_utf8(bytes("txt")).expect("text");
    let key = holds
        .lines()
        .next()
        .and_then(|key| key.strip_prefix("key "));
    (key.expect("a key").to_string(), bytes("tape"))
}

pub(super) fn tapes() -> Vec<File> {
    let mut random = Random::new(7);
    let mut tickets =
        |n: usize| -> Vec<Ticket> { (0..n).map(|_| random.ticket_of_form(1)).collect() };
    let three = [SMALLEST, TICKET, GREATEST];
    let forty = tickets(40);
    // heavy, so that their total does not fit in 32 bits
    let most: Vec<Ticket> = tickets(5_000)
        .into_iter()
        .map(|t| Ticket {
            gross: 1_048_575 - t.gross / 16,
            tare: t.tare / 16,
            ..t
        })
        .collect();
    let greatest = Head {
        device: u32::MAX,
        shift: 1_000_000,
        sheet: 1_000_000,
    };
    // the tapes of one ticket and of none are those that docs/FORMAT.md works through
    let key: [u8; 16] = std::array::from_fn(|i| i as u8);
    let next_sheet = Head { sheet: 2, ..HEAD };
    let mut files = Vec::new();
    files.extend(good("0_tickets", &key, next_sheet, &[]));
    files.extend(good("1_ticket", &key, HEAD, &[TICKET]));
    files.extend(good("3_tickets", &random.block(), greatest, &three));
    files.extend(good("40_tickets", &random.block(), random.head(), &forty));
    files.extend(good("5000_tickets", &random.block(), random.head(), &most));
    let third_sheet = Head { sheet: 3, ..HEAD };
    let empty_trips = [&[TICKET], &EMPTY_TRIPS[..]].concat();
    files.extend(good("empty_trips", &key, third_sheet, &empty_trips));
    let sheet = |sheet: u32| Head { sheet, ..HEAD };
    files.extend(good("1_ticket_form_2", &key, sheet(4), &[FORM_2]));
    files.extend(good("both_forms", &key, sheet(5), &both_forms()));
    let mut random = Random::new(9);
    let sixty: Vec<Ticket> = (0..60).map(|_| random.ticket()).collect();
    let (any_key, any_head) = (random.block(), random.head());
    files.extend(good("60_tickets_both_forms", &any_key, any_head, &sixty));

    let tape = write_tape(&key, HEAD, &[TICKET]);
    let head = HEAD.pack().expect("document 01's head packs");
    let ticket = TICKET.pack().expect("document 01's ticket packs");
    files.extend(refused("key_of_15_bytes", &key[..15], Vec::new()));
    files.extend(refused("no_tape", &key, Vec::new()));
    files.extend(refused("24_bytes", &key, tape[..24].to_vec()));
    files.extend(refused("37_bytes", &key, tape[..37].to_vec()));
    files.extend(refused("39_bytes", &key, [&tape[..], &[0]].concat()));
    files.extend(refused(
        "5001_tickets",
        &key,
        sealed(&key, head, &ticket.repeat(5_001)),
    ));

    let h = HEAD;
    for (name, wrong) in [
        ("device_0", Head { device: 0, ..h }),
        ("shift_0", Head { shift: 0, ..h }),
        (
            "shift_1000001",
            Head {
                shift: 1_000_001,
                ..h
            },
        ),
        ("sheet_0", Head { sheet: 0, ..h }),
        (
            "sheet_1000001",
            Head {
                sheet: 1_000_001,
                ..h
            },
        ),
    ] {
        let wrong = pack_head_anyway(wrong).expect("the head fits its widths");
        files.extend(refused(name, &key, sealed(&key, wrong, &ticket)));
    }

    files.extend(refused("key_bit", &turned(&key, 0), tape.clone()));
    for (name, bit) in [
        ("head_bit", 24 + 1),
        ("ciphertext_bit", 8 * 9),
        ("tag_first_bit", 8 * 22),
        ("tag_last_bit", 8 * 38 - 1),
    ] {
        files.extend(refused(name, &key, turned(&tape, bit)));
    }
    files.extend(refused("last_ticket_missing", &key, {
        let two = write_tape(&key, HEAD, &[TICKET, TICKET]);
        [&two[..22], &two[35..]].concat()
    }));

    let spare_bit = turned(&ticket, 8 * 12);
    let second = [ticket, [0; 13]].concat();
    files.extend(refused("spare_bit", &key, sealed(&key, head, &spare_bit)));
    files.extend(refused("second_ticket", &key, sealed(&key, head, &second)));
    let t = TICKET;
    for (name, wrong) in [
        ("form_0", Ticket { form: 0, ..t }),
        ("form_3", Ticket { form: 3, ..t }),
        ("form_15", Ticket { form: 15, ..t }),
        ("truck_0", Ticket { truck: 0, ..t }),
        ("grade_10", Ticket { grade: 10, ..t }),
        ("loaded_after_tipped", Ticket { loaded: 4_201, ..t }),
        (
            "tipped_43200",
            Ticket {
                tipped: 43_200,
                ..t
            },
        ),
        ("tare_above_gross", Ticket { tare: 250_001, ..t }),
        (
            "form_2_tipped_86400",
            Ticket {
                tipped: 86_400,
                ..FORM_2
            },
        ),
        (
            "form_2_loaded_after_tipped",
            Ticket {
                loaded: 65_536 + 4_200,
                ..FORM_2
            },
        ),
        (
            "form_2_tare_above_gross",
            Ticket {
                tare: 250_001,
                ..FORM_2
            },
        ),
    ] {
        let wrong = pack_anyway(wrong).expect("the ticket fits its widths");
        files.extend(refused(name, &key, sealed(&key, head, &wrong)));
    }
    files
}
