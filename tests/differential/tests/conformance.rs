//! The conformance kit, read from its files and tried on library and twin.

use haul_tape::{Head, Ticket};
use haul_tape_differential::both::{self, Ran};
use haul_tape_differential::calls::{write_tape, SessionCall, Sessions, WriterCall, Writers};
use haul_tape_differential::kit::{self, bytes_of, heard, Readers};
use haul_tape_twin::machine::{Done, Kind};
use haul_tape_twin::pairing::Paired;
use haul_tape_twin::receptions::{Part, Parted};
use std::fs;
use std::path::PathBuf;

fn path(name: &str) -> PathBuf {
    let kit = PathBuf::from(env!("CARGO_MANIFEST_DIR")).join("../../conformance");
    kit.join(name)
}

fn read(name: &str) -> Vec<u8> {
    fs::read(path(name)).unwrap_or_else(|error| panic!("{name}: {error}"))
}

/// The lines of a file with their fields, without comments and empty lines.
fn lines(name: &str) -> Vec<Vec<String>> {
    let text = String::from_utf8(read(name)).expect("text");
    text.lines()
        .filter(|line| !line.is_empty() && !line.starts_with('#'))
        .map(|line| line.split(' ').map(str::to_string).collect())
        .collect()
}

fn number<T: TryFrom<u64>>(field: &str) -> T {
    let number: u64 = field
        .parse()
        .unwrap_or_else(|_| panic!("a number: {field}"));
    T::try_from(number).unwrap_or_else(|_| panic!("too great: {field}"))
}

fn ticket(fields: &[String]) -> Ticket {
    let [form, truck, shovel, tip, grade, loaded, tipped, gross, tare] = fields else {
        panic!("nine fields: {fields:?}");
    };
    Ticket {
        form: number(form),
        truck: number(truck),
        shovel: number(shovel),
        tip: number(tip),
        grade: number(grade),
        loaded: number(loaded),
        tipped: number(tipped),
        gross: number(gross),
        tare: number(tare),
    }
}

fn head(fields: &[String]) -> Head {
    let [device, shift, sheet] = fields else {
        panic!("three fields: {fields:?}");
    };
    Head {
        device: number(device),
        shift: number(shift),
        sheet: number(sheet),
    }
}

#[test]
fn the_files_are_those_that_the_generator_writes() {
    let mut names: Vec<String> = Vec::new();
    for file in kit::files() {
        both::same_bytes(&file.name, &file.bytes, &read(&file.name));
        names.push(file.name);
    }
    for entry in fs::read_dir(path("tapes")).unwrap() {
        let name = entry.unwrap().file_name().into_string().unwrap();
        assert!(names.contains(&format!("tapes/{name}")), "{name} is stray");
    }
}

#[test]
fn messages() {
    let lines = lines("messages.txt");
    assert!(lines.len() > 60);
    for fields in lines {
        let [key, nonce, data, text, ciphertext, tag] = &fields[..] else {
            panic!("six fields: {fields:?}");
        };
        let [key, nonce, data, text] = [key, nonce, data, text].map(|field| bytes_of(field));
        let sealed = [bytes_of(ciphertext), bytes_of(tag)].concat();
        let ran = both::seal(&key, &nonce, &data, &text, sealed.len());
        assert_eq!(ran.out, sealed);
        let ran = both::open(&key, &nonce, &data, &sealed, text.len());
        assert_eq!((ran.answer, ran.out), (Ok(text.len()), text));
    }
}

#[test]
fn long_messages() {
    for fields in lines("long_messages.txt") {
        let [key, nonce, data, text, tag, check] = &fields[..] else {
            panic!("six fields: {fields:?}");
        };
        let [key, nonce, data, text] = [key, nonce, data, text].map(|field| bytes_of(field));
        let ran = both::seal(&key, &nonce, &data, &text, text.len() + 16);
        let (ciphertext, sealed_tag) = ran.out.split_at(text.len());
        assert_eq!(sealed_tag, bytes_of(tag));
        let ran = both::seal(&key, &nonce, ciphertext, &[], 16);
        assert_eq!(ran.out, bytes_of(check));
    }
}

#[test]
fn refused_messages() {
    for fields in lines("refused_messages.txt") {
        let [expected, call, key, nonce, data, input, room] = &fields[..] else {
            panic!("seven fields: {fields:?}");
        };
        let [key, nonce, data, input] = [key, nonce, data, input].map(|field| bytes_of(field));
        let ran = match call.as_str() {
            "seal" => both::seal(&key, &nonce, &data, &input, number(room)),
            "open" => both::open(&key, &nonce, &data, &input, number(room)),
            _ => panic!("no call: {call}"),
        };
        assert_eq!(ran.answer, Err(number(expected)));
    }
}

#[test]
fn short_tags() {
    // messages, by the length of the tag; refusals, by their number
    let (mut messages, mut refused) = ([0; 17], [0; 10]);
    for fields in lines("short_tags.txt") {
        let fields: Vec<&str> = fields.iter().map(String::as_str).collect();
        match fields[..] {
            ["message", length, key, nonce, data, text, ciphertext, tag] => {
                let tag_bytes: usize = number(length);
                let [key, nonce, data, text] = [key, nonce, data, text].map(bytes_of);
                assert_eq!(bytes_of(tag).len(), tag_bytes);
                let sealed = [bytes_of(ciphertext), bytes_of(tag)].concat();
                let ran = both::seal_tag(&key, &nonce, &data, &text, tag_bytes, sealed.len());
                assert_eq!((ran.answer, &ran.out), (Ok(sealed.len()), &sealed));
                let ran = both::open_tag(&key, &nonce, &data, &sealed, tag_bytes, text.len());
                assert_eq!((ran.answer, ran.out), (Ok(text.len()), text));
                messages[tag_bytes] += 1;
            }
            ["refused", expected, call, length, key, nonce, data, input, room] => {
                let (tag_bytes, room) = (number(length), number(room));
                let [key, nonce, data, input] = [key, nonce, data, input].map(bytes_of);
                let ran = match call {
                    "seal_tag" => both::seal_tag(&key, &nonce, &data, &input, tag_bytes, room),
                    "open_tag" => both::open_tag(&key, &nonce, &data, &input, tag_bytes, room),
                    _ => panic!("no call: {call}"),
                };
                assert_eq!(ran.answer, Err(number(expected)), "{fields:?}");
                refused[number::<usize>(expected)] += 1;
            }
            _ => panic!("no line: {fields:?}"),
        }
    }
    assert!(messages[8..].iter().all(|&some| some >= 10), "{messages:?}");
    for number in [2, 5, 6, 7, 9] {
        assert!(refused[number] >= 10, "{refused:?}");
    }
}

#[test]
fn packed() {
    for fields in lines("packed.txt") {
        let (first, rest) = fields.split_first().unwrap();
        let (last, but_last) = rest.split_last().unwrap();
        match first.as_str() {
            "ticket" => {
                let ticket = ticket(but_last);
                assert_eq!(both::pack_ticket(ticket, 13).out, bytes_of(last));
                assert_eq!(both::unpack_ticket(&bytes_of(last)), Ok(ticket));
            }
            "head" => {
                let head = head(but_last);
                assert_eq!(both::pack_head(head, 9).out, bytes_of(last));
                assert_eq!(both::unpack_head(&bytes_of(last)), Ok(head));
            }
            "refused_ticket" => {
                let ran = both::pack_ticket(ticket(&rest[1..]), 13);
                assert_eq!(ran.answer, Err(number(&rest[0])));
            }
            "refused_head" => {
                let ran = both::pack_head(head(&rest[1..]), 9);
                assert_eq!(ran.answer, Err(number(&rest[0])));
            }
            "refused_packed_ticket" => {
                let answer = both::unpack_ticket(&bytes_of(last));
                assert_eq!(answer, Err(number(&rest[0])));
            }
            "refused_packed_head" => {
                let answer = both::unpack_head(&bytes_of(last));
                assert_eq!(answer, Err(number(&rest[0])));
            }
            _ => panic!("no line: {fields:?}"),
        }
    }
}

#[test]
fn moves() {
    let (mut to, mut as_it_is, mut refused) = ([0; 3], 0, [0; 12]);
    for fields in lines("moves.txt") {
        let (call, answer) = parted(&fields);
        let [name, from @ .., form] = call else {
            panic!("a ticket and a form: {fields:?}");
        };
        assert_eq!(name, "move");
        let (from, form) = (ticket(from), number(form));
        let moved = both::move_ticket(from, form);
        match answer {
            [done, expected @ .., packed] if done == "done" => {
                let expected = ticket(expected);
                assert_eq!(moved, Ok(expected), "{fields:?}");
                assert_eq!(expected, Ticket { form, ..from });
                assert_eq!(both::pack_ticket(expected, 13).out, bytes_of(packed));
                assert_eq!(both::move_ticket(expected, from.form), Ok(from));
                to[usize::from(form)] += 1;
                as_it_is += u32::from(form == from.form);
            }
            [word, expected] if word == "refused" => {
                assert_eq!(moved, Err(number(expected)), "{fields:?}");
                refused[number::<usize>(expected)] += 1;
            }
            _ => panic!("no answer: {fields:?}"),
        }
    }
    assert!(to[1..].iter().all(|&some| some > 15), "{to:?}");
    assert!(as_it_is > 10, "{as_it_is}");
    assert!(refused[4] > 50 && refused[11] > 10, "{refused:?}");
}

fn session_call(fields: &[String]) -> SessionCall {
    let bytes = |at: usize| bytes_of(&fields[at]);
    match fields[0].as_str() {
        "begin" => SessionCall::Begin {
            key: bytes(1),
            nonce: bytes(2),
        },
        "begin_tag" => SessionCall::BeginTag {
            key: bytes(1),
            nonce: bytes(2),
            tag_bytes: number(&fields[3]),
        },
        "data" => SessionCall::Data { piece: bytes(1) },
        "seal_text" => SessionCall::SealText {
            piece: bytes(1),
            room: number(&fields[2]),
        },
        "seal_close" => SessionCall::SealClose {
            room: number(&fields[1]),
        },
        "check_text" => SessionCall::CheckText { piece: bytes(1) },
        "check_close" => SessionCall::CheckClose { tag: bytes(1) },
        call => panic!("no call of a session: {call}"),
    }
}

fn writer_call(fields: &[String]) -> WriterCall {
    let (room, arguments) = fields.split_last().expect("a call");
    let room = number(room);
    match fields[0].as_str() {
        "start" => WriterCall::Start {
            key: bytes_of(&arguments[1]),
            head: head(&arguments[2..]),
            room,
        },
        "add" => WriterCall::Add {
            ticket: ticket(&arguments[1..]),
            room,
        },
        "finish" => WriterCall::Finish { room },
        call => panic!("no call of a writer: {call}"),
    }
}

/// Sees that a call went as the fields behind its `=` say. `begun` has key and nonce, if any.
fn answered(ran: &Ran<Done>, fields: &[String], begun: &Option<(Vec<u8>, Vec<u8>)>) {
    match fields[0].as_str() {
        "done" => {
            let done = Done {
                bytes: number(&fields[1]),
                steps: number(&fields[2]),
            };
            assert_eq!(ran.answer, Ok(done));
            let written = &ran.out[..done.bytes];
            if let Some(check) = fields[3].strip_prefix("check:") {
                let (key, nonce) = begun.as_ref().expect("a session has begun");
                let tag = both::seal(key, nonce, written, &[], 16).out;
                assert_eq!(tag, bytes_of(check));
            } else {
                assert_eq!(written, bytes_of(&fields[3]));
            }
        }
        "refused" => assert_eq!(ran.answer, Err(number(&fields[1]))),
        answer => panic!("no answer: {answer}"),
    }
}

/// Adds a ticket until the writer has as many as the line says. Each must be done, with 13 bytes and
/// 104 steps; answers the last.
fn fill(writers: &mut Writers, fields: &[String]) -> Ran<Done> {
    let tickets: u64 = number(&fields[1]);
    let call = WriterCall::Add {
        ticket: ticket(&fields[2..]),
        room: 13,
    };
    loop {
        let steps = writers.twin().steps();
        let ran = writers.call(&call);
        let done = ran.answer.expect("the writer is filled");
        assert_eq!((done.bytes, done.steps), (13, steps + 104));
        if writers.twin().tickets() == tickets {
            return ran;
        }
    }
}

enum List {
    Session(Sessions),
    Writer(Writers),
}

#[test]
fn calls() {
    lists_of_calls("calls.txt");
}

#[test]
fn short_tag_calls() {
    lists_of_calls("short_tag_calls.txt");
}

fn lists_of_calls(name: &str) {
    let mut list = None;
    let mut begun = None;
    for fields in lines(name) {
        if fields[0] == "list" {
            list = Some(match fields[1].as_str() {
                "sealing" => List::Session(Sessions::fresh(Kind::Sealing)),
                "checking" => List::Session(Sessions::fresh(Kind::Checking)),
                "writer" => List::Writer(Writers::fresh()),
                kind => panic!("no list: {kind}"),
            });
            begun = None;
            continue;
        }
        let (call, answer) = parted(&fields);
        let ran = match list.as_mut().expect("a list begins the file") {
            List::Session(sessions) => sessions.call(&session_call(call)),
            List::Writer(writers) if call[0] == "fill" => fill(writers, call),
            List::Writer(writers) => writers.call(&writer_call(call)),
        };
        if ["begin", "begin_tag"].contains(&call[0].as_str()) && ran.answer.is_ok() {
            begun = Some((bytes_of(&call[1]), bytes_of(&call[2])));
        }
        answered(&ran, answer, &begun);
    }
}

/// The fields before the `=` and those behind it.
fn parted(fields: &[String]) -> (&[String], &[String]) {
    let equals = fields.iter().position(|field| field == "=").expect("an =");
    (&fields[..equals], &fields[equals + 1..])
}

#[test]
fn readings() {
    let lines = lines("readings.txt");
    let mut tried = 0;
    for reader in lines.chunk_by(|_, next| next[0] != "reader") {
        let (first, readings) = reader.split_first().unwrap();
        assert_eq!(first[0], "reader");
        let plain = bytes_of(&first[1]);
        let mut readers = Readers::new(&plain);
        for fields in readings {
            let (call, answer) = parted(fields);
            assert_eq!(call[0], "read");
            let (position, answer) = answer.split_last().unwrap();
            let expected = match answer[0].as_str() {
                "ticket" => Ok(Some(ticket(&answer[1..]))),
                "end" => Ok(None),
                "refused" => Err(number(&answer[1])),
                answer => panic!("no answer: {answer}"),
            };
            for _ in 0..number(&call[1]) {
                assert_eq!(readers.read(), expected, "{fields:?}");
            }
            assert_eq!(readers.position(), number(position), "{fields:?}");
        }
        tried += 1;
    }
    assert!(tried > 10);
}

#[test]
fn openings() {
    for fields in lines("openings.txt") {
        let (call, answer) = parted(&fields);
        let [key, tape, room] = call else {
            panic!("key, tape and room: {fields:?}");
        };
        let tape = match tape.ends_with(".tape") {
            true => read(&format!("tapes/{tape}")),
            false => bytes_of(tape),
        };
        let ran = both::open_tape(&bytes_of(key), &tape, number(room));
        match answer {
            [done, n, net, plain] if done == "done" => {
                assert_eq!(ran.answer, Ok((number(n), number(net))), "{fields:?}");
                let plain = plain_bytes(plain);
                both::same_bytes("plain bytes", &ran.out[..13 * number::<usize>(n)], &plain);
            }
            [refused, expected] if refused == "refused" => {
                assert_eq!(ran.answer, Err(number(expected)), "{fields:?}");
            }
            _ => panic!("no answer: {fields:?}"),
        }
    }
}

#[test]
fn trucks() {
    let (mut tried, mut refused) = ([0, 0], [0, 0]);
    for fields in lines("trucks.txt") {
        let (call, answer) = parted(&fields);
        let tapes: Vec<Vec<u8>> = call[1..].iter().map(|field| plain_bytes(field)).collect();
        let expected: Result<Vec<usize>, u8> = match answer[0].as_str() {
            "done" => Ok(answer[1..].iter().map(|field| number(field)).collect()),
            "refused" => Err(number(&answer[1])),
            answer => panic!("no answer: {answer}"),
        };
        let (which, answer) = match (call[0].as_str(), &tapes[..]) {
            ("trucks", [plain]) => {
                let trucks = both::trucks(plain).map(|trucks| {
                    let mut numbers = vec![trucks.len()];
                    numbers.extend(trucks.into_iter().map(usize::from));
                    numbers
                });
                (0, trucks)
            }
            ("trucks_of_two", [first, second]) => {
                let counts = both::trucks_of_two(first, second)
                    .map(|counts| vec![counts.both, counts.either, counts.just_one]);
                (1, counts)
            }
            _ => panic!("no line: {fields:?}"),
        };
        assert_eq!(answer, expected, "{fields:?}");
        tried[which] += 1;
        refused[which] += u32::from(expected.is_err());
    }
    assert!(tried.iter().all(|&tried| tried > 40), "{tried:?}");
    assert!(refused.iter().all(|&refused| refused > 15), "{refused:?}");
}

#[test]
fn receptions() {
    let tape = |name: &str| read(&format!("tapes/{name}.tape"));
    // of parting: done, refused; of longer: mast 1, mast 2, no bytes
    let (mut partings, mut masts) = ([0; 2], [0; 3]);
    for fields in lines("receptions.txt") {
        let (call, answer) = parted(&fields);
        let [call, first, second] = call else {
            panic!("a call and two receptions: {fields:?}");
        };
        let [first, second] = [first, second].map(|field| heard(field, &tape));
        let answer: Vec<&str> = answer.iter().map(String::as_str).collect();
        match (call.as_str(), &answer[..]) {
            ("parting", ["done"]) => {
                assert_eq!(both::parting(&first, &second), Ok(()), "{fields:?}");
                partings[0] += 1;
            }
            ("parting", ["refused", expected, place]) => {
                let expected = Parted {
                    number: number(expected),
                    place: number(place),
                };
                let answer = both::parting(&first, &second);
                assert_eq!(answer, Err(expected), "{fields:?}");
                partings[1] += 1;
            }
            ("longer", [mast, bytes]) => {
                let part = Part {
                    mast: number(mast),
                    bytes: number(bytes),
                };
                assert_eq!(both::longer(&first, &second), part, "{fields:?}");
                masts[match part.bytes {
                    0 => 2,
                    _ => part.mast as usize - 1,
                }] += 1;
            }
            _ => panic!("no line: {fields:?}"),
        }
    }
    assert!(partings.iter().all(|&some| some > 30), "{partings:?}");
    assert!(masts.iter().all(|&some| some > 15), "{masts:?}");
}

/// The items of a list of positions, each with one number or with several.
fn positions(field: &str) -> Vec<Vec<u32>> {
    let item = |item: &str| -> Vec<u32> { item.split('-').map(number).collect() };
    let mut items = Vec::new();
    for run in field.split(',').filter(|&run| run != "-") {
        let (first, last) = run.split_once("..").unwrap_or((run, run));
        let (mut next, last) = (item(first), item(last));
        while next != last {
            items.push(next.clone());
            next.iter_mut().for_each(|position| *position += 1);
            assert!(next[0] <= last[0], "no run: {run}");
        }
        items.push(last);
    }
    items
}

#[test]
fn pairs() {
    // lines that are done, with pairs and with tickets left over on either tape; refusals, by number
    let (mut done, mut left, mut refused) = (0, [0; 2], [0; 13]);
    for fields in lines("pairs.txt") {
        let (call, answer) = parted(&fields);
        let [call, first, second, rooms @ ..] = call else {
            panic!("two tapes and three rooms: {fields:?}");
        };
        assert_eq!(call, "pair_tapes");
        let [first, second] = [first, second].map(|field| plain_bytes(field));
        let rooms: Vec<usize> = rooms.iter().map(|room| number(room)).collect();
        let rooms: [usize; 3] = rooms.try_into().expect("three rooms");
        let (paired, outputs) = both::pair_tapes(&first, &second, rooms);
        let mut expected = rooms.map(both::number_pattern);
        match answer {
            [word, lists @ ..] if word == "done" => {
                let lists: Vec<_> = lists.iter().map(|field| positions(field)).collect();
                let [pairs, left_first, left_second] = &lists[..] else {
                    panic!("three lists: {fields:?}");
                };
                let counts = Paired {
                    pairs: pairs.len(),
                    left_first: left_first.len(),
                    left_second: left_second.len(),
                };
                assert_eq!(paired, Ok(counts), "{fields:?}");
                for (expected, list) in expected.iter_mut().zip(&lists) {
                    let list = list.concat();
                    expected[..list.len()].copy_from_slice(&list);
                }
                assert!(pairs.iter().all(|pair| pair.len() == 2), "{fields:?}");
                assert_eq!(13 * (counts.pairs + counts.left_first), first.len());
                assert_eq!(13 * (counts.pairs + counts.left_second), second.len());
                done += u32::from(counts.pairs > 0);
                left[0] += u32::from(counts.left_first > 0);
                left[1] += u32::from(counts.left_second > 0);
            }
            [word, expected] if word == "refused" => {
                assert_eq!(paired, Err(number(expected)), "{fields:?}");
                refused[number::<usize>(expected)] += 1;
            }
            _ => panic!("no answer: {fields:?}"),
        }
        assert_eq!(outputs, expected, "{fields:?}");
    }
    assert!(done > 60, "{done}");
    assert!(left.iter().all(|&some| some > 30), "{left:?}");
    for number in [2, 6, 8, 12] {
        assert!(refused[number] > 10, "{refused:?}");
    }
}

/// The plain bytes that a field stands for; it may name the file of a tape.
fn plain_bytes(field: &str) -> Vec<u8> {
    match field.ends_with(".txt") {
        true => packed_tickets(&format!("tapes/{field}")),
        false => bytes_of(field),
    }
}

/// The packed bytes of all tickets that a file of a tape names.
fn packed_tickets(name: &str) -> Vec<u8> {
    lines(name)
        .iter()
        .filter(|fields| fields[0] == "ticket")
        .flat_map(|fields| both::pack_ticket(ticket(&fields[1..]), 13).out)
        .collect()
}

#[test]
fn tapes() {
    let mut tried = 0;
    for entry in fs::read_dir(path("tapes")).unwrap() {
        let name = entry.unwrap().file_name().into_string().unwrap();
        let Some(name) = name.strip_suffix(".tape") else {
            continue;
        };
        let tape = read(&format!("tapes/{name}.tape"));
        let holds = lines(&format!("tapes/{name}.txt"));
        let [key, second, tickets @ ..] = &holds[..] else {
            panic!("{name}: a key and a head, or a refusal");
        };
        assert_eq!(key[0], "key");
        let key = bytes_of(&key[1]);
        let opened = both::open_tape(&key, &tape, tape.len());
        match second[0].as_str() {
            "head" => {
                let head = head(&second[1..]);
                let tickets: Vec<Ticket> = tickets.iter().map(|line| ticket(&line[1..])).collect();
                assert_eq!(write_tape(&key, head, &tickets), tape);
                let net = tickets.iter().map(|t| u64::from(t.gross - t.tare)).sum();
                assert_eq!(opened.answer, Ok((tickets.len() as u64, net)));
                let plain = &opened.out[..13 * tickets.len()];
                assert_eq!(both::read(plain), (tickets, None));
            }
            "refused" => assert_eq!(opened.answer, Err(number(&second[1]))),
            line => panic!("{name}: no line: {line}"),
        }
        let listing = read(&format!("tapes/{name}.list"));
        assert_eq!(both::listing(&key, &tape), listing);
        tried += 1;
    }
    assert!(tried >= 5);
}
