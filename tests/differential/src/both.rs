//! Calls made on library and twin at once. Each answers what both said, with the output after it;
//! where the two differ it panics.

use haul_tape::exports::{self, Answer, TruckCount, Written};
use haul_tape::{Head, Reader, Refusal, Ticket};
use haul_tape_twin::machine::Done;
use haul_tape_twin::pairing::{self, Paired, Pairing};
use haul_tape_twin::reader::{self, Next};
use haul_tape_twin::receptions::{self, Part, Parted};
use haul_tape_twin::{forms, listing, message, tape, ticket, trucks};
use std::fmt::Debug;

/// What a call answered, and its output after it.
#[derive(Clone, PartialEq, Eq, Debug)]
pub struct Ran<T> {
    pub answer: Result<T, u8>,
    pub out: Vec<u8>,
}

/// An output before a call: no byte is zero, and neighbours differ, so that a byte written where
/// none belongs is seen.
pub fn pattern(length: usize) -> Vec<u8> {
    (0..length).map(|i| (i % 251) as u8 + 5).collect()
}

/// Sees that two byte strings are the same, and else says where they part.
#[track_caller]
pub fn same_bytes(what: &str, library: &[u8], twin: &[u8]) {
    if library != twin {
        let place = library.iter().zip(twin).take_while(|(a, b)| a == b).count();
        panic!(
            "{what}: library and twin part at byte {place} (of {} and {})",
            library.len(),
            twin.len()
        );
    }
}

/// Makes a call that writes, with inputs and the length of its output, on the library and on the
/// twin.
#[track_caller]
pub(crate) fn agree<T: PartialEq + Debug>(
    what: &str,
    inputs: &[&[u8]],
    room: usize,
    library: impl FnOnce(&mut [u8]) -> Result<T, u8>,
    twin: impl FnOnce(&mut [u8]) -> Result<T, u8>,
) -> Ran<T> {
    let before: Vec<Vec<u8>> = inputs.iter().map(|input| input.to_vec()).collect();
    let mut library_out = pattern(room);
    let answer = library(&mut library_out);
    for (input, before) in inputs.iter().zip(&before) {
        same_bytes("an input after the call", input, before);
    }
    let mut twin_out = pattern(room);
    let twin_answer = twin(&mut twin_out);
    assert_eq!(answer, twin_answer, "{what}: library and twin differ");
    same_bytes(what, &library_out, &twin_out);
    Ran {
        answer,
        out: library_out,
    }
}

/// An answer of the library in the twin's form. A refusal says nothing besides its number.
pub(crate) fn done(answer: Answer) -> Result<Done, u8> {
    if answer.refused == 0 {
        return Ok(Done {
            bytes: answer.bytes as usize,
            steps: answer.steps,
        });
    }
    assert_eq!((answer.bytes, answer.steps), (0, 0), "beside a refusal");
    Err(u8::try_from(answer.refused).expect("a number of document 01"))
}

fn written(written: Written) -> Result<usize, u8> {
    if written.refused == 0 {
        return Ok(written.bytes as usize);
    }
    assert_eq!(written.bytes, 0, "beside a refusal");
    Err(u8::try_from(written.refused).expect("a number of document 01"))
}

fn truck_count(count: TruckCount) -> Result<usize, u8> {
    if count.refused == 0 {
        return Ok(count.trucks as usize);
    }
    assert_eq!(count.trucks, 0, "beside a refusal");
    Err(u8::try_from(count.refused).expect("a number of document 01"))
}

/// The ticket in the twin's form.
pub fn twin_ticket(t: Ticket) -> ticket::Ticket {
    ticket::Ticket {
        form: t.form,
        truck: t.truck,
        shovel: t.shovel,
        tip: t.tip,
        grade: t.grade,
        loaded: t.loaded,
        tipped: t.tipped,
        gross: t.gross,
        tare: t.tare,
    }
}

/// The head in the twin's form.
pub fn twin_head(h: Head) -> ticket::Head {
    ticket::Head {
        device: h.device,
        shift: h.shift,
        sheet: h.sheet,
    }
}

/// Seals into an output of `room` bytes.
#[track_caller]
pub fn seal(key: &[u8], nonce: &[u8], data: &[u8], text: &[u8], room: usize) -> Ran<usize> {
    agree(
        "seal",
        &[key, nonce, data, text],
        room,
        |out| written(exports::seal(key, nonce, data, text, out)),
        |out| message::seal(key, nonce, data, text, out),
    )
}

/// Opens into an output of `room` bytes.
#[track_caller]
pub fn open(key: &[u8], nonce: &[u8], data: &[u8], sealed: &[u8], room: usize) -> Ran<usize> {
    agree(
        "open",
        &[key, nonce, data, sealed],
        room,
        |out| written(exports::open(key, nonce, data, sealed, out)),
        |out| message::open(key, nonce, data, sealed, out),
    )
}

/// Seals, with a tag of this length, into an output of `room` bytes.
#[track_caller]
pub fn seal_tag(
    key: &[u8],
    nonce: &[u8],
    data: &[u8],
    text: &[u8],
    tag_bytes: usize,
    room: usize,
) -> Ran<usize> {
    agree(
        "seal, with a length of the tag",
        &[key, nonce, data, text],
        room,
        |out| written(exports::seal_tag(key, nonce, data, text, tag_bytes, out)),
        |out| message::seal_tag(key, nonce, data, text, tag_bytes, out),
    )
}

/// Opens, with a tag of this length, into an output of `room` bytes.
#[track_caller]
pub fn open_tag(
    key: &[u8],
    nonce: &[u8],
    data: &[u8],
    sealed: &[u8],
    tag_bytes: usize,
    room: usize,
) -> Ran<usize> {
    agree(
        "open, with a length of the tag",
        &[key, nonce, data, sealed],
        room,
        |out| written(exports::open_tag(key, nonce, data, sealed, tag_bytes, out)),
        |out| message::open_tag(key, nonce, data, sealed, tag_bytes, out),
    )
}

/// Packs a ticket into an output of `room` bytes.
#[track_caller]
pub fn pack_ticket(ticket: Ticket, room: usize) -> Ran<usize> {
    agree(
        "pack a ticket",
        &[],
        room,
        |out| written(exports::pack_ticket(ticket, out)),
        |out| ticket::pack(&twin_ticket(ticket), out),
    )
}

/// Packs a head into an output of `room` bytes.
#[track_caller]
pub fn pack_head(head: Head, room: usize) -> Ran<usize> {
    agree(
        "pack a head",
        &[],
        room,
        |out| written(exports::pack_head(head, out)),
        |out| ticket::pack_head(&twin_head(head), out),
    )
}

/// Unpacks a ticket.
#[track_caller]
pub fn unpack_ticket(packed: &[u8]) -> Result<Ticket, u8> {
    let library = exports::unpack_ticket(packed);
    match ticket::unpack(packed) {
        Ok(twin) => {
            assert_eq!(library.refused, 0, "unpack a ticket");
            assert_eq!(twin_ticket(library.ticket), twin);
            Ok(library.ticket)
        }
        Err(number) => {
            assert_eq!(library.refused, number.into(), "unpack a ticket");
            assert_eq!(library.ticket, NO_TICKET);
            Err(number)
        }
    }
}

/// Unpacks a head.
#[track_caller]
pub fn unpack_head(packed: &[u8]) -> Result<Head, u8> {
    let library = exports::unpack_head(packed);
    match ticket::unpack_head(packed) {
        Ok(twin) => {
            assert_eq!(library.refused, 0, "unpack a head");
            assert_eq!(twin_head(library.head), twin);
            Ok(library.head)
        }
        Err(number) => {
            assert_eq!(library.refused, number.into(), "unpack a head");
            assert_eq!(library.head, NO_HEAD);
            Err(number)
        }
    }
}

/// Moves a ticket to a form.
#[track_caller]
pub fn move_ticket(ticket: Ticket, form: u8) -> Result<Ticket, u8> {
    let library = exports::move_ticket(ticket, form);
    let answer = match forms::move_ticket(&twin_ticket(ticket), form) {
        Ok(twin) => {
            assert_eq!(library.refused, 0, "move {ticket:?} to {form}");
            assert_eq!(twin_ticket(library.ticket), twin);
            Ok(library.ticket)
        }
        Err(number) => {
            let refused = u32::from(number);
            assert_eq!(library.refused, refused, "move {ticket:?} to {form}");
            assert_eq!(library.ticket, NO_TICKET);
            Err(number)
        }
    };
    let by_wrapper = ticket.in_form(form).map_err(|refusal| refusal.number());
    assert_eq!(by_wrapper, answer);
    answer
}

/// What stands in place of a ticket where there is none.
const NO_TICKET: Ticket = Ticket {
    form: 0,
    truck: 0,
    shovel: 0,
    tip: 0,
    grade: 0,
    loaded: 0,
    tipped: 0,
    gross: 0,
    tare: 0,
};

/// What stands in place of a head where there is none.
const NO_HEAD: Head = Head {
    device: 0,
    shift: 0,
    sheet: 0,
};

/// Opens a tape into an output of `room` bytes. Answers tickets and total net.
#[track_caller]
pub fn open_tape(key: &[u8], tape: &[u8], room: usize) -> Ran<(u64, u64)> {
    agree(
        "open a tape",
        &[key, tape],
        room,
        |out| {
            let opened = exports::open_tape(key, tape, out);
            if opened.refused == 0 {
                return Ok((opened.tickets, opened.net));
            }
            assert_eq!((opened.tickets, opened.net), (0, 0), "beside a refusal");
            Err(u8::try_from(opened.refused).expect("a number of document 01"))
        },
        |out| tape::open_tape(key, tape, out),
    )
}

/// Lists a tape.
#[track_caller]
pub fn listing(key: &[u8], tape: &[u8]) -> Vec<u8> {
    let text = listing::listing(key, tape);
    for room in [text.len(), text.len() + 7, haul_tape::MOST_LISTING_BYTES] {
        let mut out = pattern(room);
        let answer = written(exports::list_tape(key, tape, &mut out));
        assert_eq!(answer, Ok(text.len()), "list a tape");
        same_bytes("list a tape", &out[..text.len()], &text);
        let behind = &pattern(room)[text.len()..];
        same_bytes("behind a listing", &out[text.len()..], behind);
    }
    let mut short = pattern(text.len() - 1);
    let answer = written(exports::list_tape(key, tape, &mut short));
    assert_eq!(answer, Err(6), "list a tape");
    same_bytes("list a tape", &short, &pattern(text.len() - 1));
    text
}

/// Reads all tickets of opened bytes, and goes on a few times after the last. Answers them, and the
/// number that ended the reading if one did.
#[track_caller]
pub fn read(plain: &[u8]) -> (Vec<Ticket>, Option<u8>) {
    let mut tickets = Vec::new();
    let mut twin = reader::Reader::new(plain);
    let end = loop {
        let before = twin.position();
        let library = exports::read_ticket(plain, before);
        match twin.next() {
            Next::Ticket(ticket) => {
                assert_eq!((library.refused, library.at_end), (0, 0), "read");
                assert_eq!(twin_ticket(library.ticket), ticket);
                assert_eq!(library.position, twin.position());
                tickets.push(library.ticket);
            }
            Next::End => {
                assert_eq!((library.refused, library.at_end), (0, 1), "read");
                assert_eq!(library.position, before);
                assert_eq!(library.ticket, NO_TICKET);
                break None;
            }
            Next::Refused(number) => {
                assert_eq!((library.refused, library.at_end), (number.into(), 0));
                assert_eq!(library.position, before);
                assert_eq!(library.ticket, NO_TICKET);
                break Some(number);
            }
        }
    };
    let last = twin.position();
    for _ in 0..3 {
        let library = exports::read_ticket(plain, last);
        let (refused, at_end) = match twin.next() {
            Next::Ticket(_) => panic!("a ticket behind the last"),
            Next::End => (0, 1),
            Next::Refused(number) => (u32::from(number), 0),
        };
        assert_eq!((library.refused, library.at_end), (refused, at_end));
        assert_eq!((library.position, twin.position()), (last, last));
    }

    let mut items: Vec<_> = tickets.iter().copied().map(Ok).collect();
    items.extend(end.map(Err));
    let mut reader = Reader::new(plain);
    let handed_out: Vec<_> = reader
        .by_ref()
        .map(|item| item.map_err(|refusal| refusal.number()))
        .collect();
    assert_eq!(handed_out, items);
    assert_eq!(reader.position(), tickets.len());
    assert!(reader.next().is_none());
    (tickets, end)
}

/// The trucks that a set of the library has: truck k is bit k % 64 of word k / 64.
pub fn trucks_in(set: &[u64; 16]) -> Vec<u16> {
    (0..1_024)
        .filter(|&truck| set[usize::from(truck) / 64] >> (truck % 64) & 1 == 1)
        .collect()
}

/// Counts the trucks on an opened tape and takes their set, into words that hold something. Answers
/// the trucks, the smallest number first.
#[track_caller]
pub fn trucks(plain: &[u8]) -> Result<Vec<u16>, u8> {
    let list = trucks::truck_list(plain);
    let number = trucks::trucks(plain);
    agree(
        "trucks",
        &[plain],
        0,
        |_| truck_count(exports::trucks(plain)),
        |_| number,
    );
    let by_wrapper = haul_tape::trucks(plain).map_err(|refusal| refusal.number());
    assert_eq!(by_wrapper.map(|trucks| trucks as usize), number);

    // Every bit of the words is 0 before one of the two calls, and 1 before the other.
    let words: [u64; 18] =
        std::array::from_fn(|i| 0x9E37_79B9_7F4A_7C15_u64.wrapping_mul(i as u64 + 1));
    for before in [words, words.map(|word| !word)] {
        let mut after = before;
        let (set, behind) = after[1..].split_first_chunk_mut().expect("16 words");
        agree(
            "the set of trucks",
            &[plain],
            0,
            |_| truck_count(exports::truck_set_of(plain, set)),
            |_| number,
        );
        match &list {
            Ok(list) => assert_eq!(&trucks_in(set), list, "the set of trucks"),
            Err(_) => assert_eq!(set[..], before[1..17], "a set after a refusal"),
        }
        assert_eq!(behind, &before[17..], "behind a set");
        assert_eq!(after[0], before[0], "before a set");
    }
    let by_wrapper = haul_tape::truck_set_of(plain).map_err(|refusal| refusal.number());
    assert_eq!(by_wrapper.map(|set| trucks_in(&set)), list);
    list
}

/// Counts the trucks on two opened tapes.
#[track_caller]
pub fn trucks_of_two(first: &[u8], second: &[u8]) -> Result<trucks::TruckCounts, u8> {
    let ran = agree(
        "trucks of two tapes",
        &[first, second],
        0,
        |_| {
            let counts = exports::trucks_of_two(first, second);
            let (both, either, just_one) = (counts.both, counts.either, counts.just_one);
            if counts.refused == 0 {
                return Ok(trucks::TruckCounts {
                    both: both as usize,
                    either: either as usize,
                    just_one: just_one as usize,
                });
            }
            assert_eq!((both, either, just_one), (0, 0, 0), "beside a refusal");
            Err(u8::try_from(counts.refused).expect("a number of document 01"))
        },
        |_| trucks::trucks_of_two(first, second),
    );
    let by_wrapper = haul_tape::trucks_of_two(first, second)
        .map(|counts| trucks::TruckCounts {
            both: counts.both as usize,
            either: counts.either as usize,
            just_one: counts.just_one as usize,
        })
        .map_err(|refusal| refusal.number());
    assert_eq!(by_wrapper, ran.answer);
    ran.answer
}

/// Where two receptions part, if they do.
#[track_caller]
pub fn parting(first: &[u8], second: &[u8]) -> Result<(), Parted> {
    let library = || {
        let parted = exports::parting(first, second);
        if parted.refused == 0 {
            assert_eq!(parted.place, 0, "a place where there is none");
            return Ok(());
        }
        Err(Parted {
            number: u8::try_from(parted.refused).expect("a number of document 02"),
            place: parted.place as usize,
        })
    };
    let ran = agree(
        "parting",
        &[first, second],
        0,
        |_| Ok(library()),
        |_| Ok(receptions::parting(first, second)),
    );
    let answer = ran.answer.expect("either answer is one");
    let by_wrapper = haul_tape::parting(first, second).map_err(|parted| Parted {
        number: Refusal::from(parted).number(),
        place: parted.place,
    });
    assert_eq!(by_wrapper, answer);
    answer
}

/// The longer of two receptions, by its mast and bytes. The Rust call must hand back that part of
/// that buffer, and not just the same bytes.
#[track_caller]
pub fn longer(first: &[u8], second: &[u8]) -> Part {
    let library = || {
        let part = exports::longer(first, second);
        Part {
            mast: part.mast,
            bytes: part.bytes as usize,
        }
    };
    let ran = agree(
        "the longer reception",
        &[first, second],
        0,
        |_| Ok(library()),
        |_| Ok(receptions::longer_part(first, second)),
    );
    let handed_back = haul_tape::longer(first, second).as_ptr_range();
    let twin = receptions::longer(first, second).as_ptr_range();
    assert_eq!(handed_back, twin, "the buffer that is handed back");
    ran.answer.expect("it is never refused")
}

/// An output of numbers before a call: none is a position, and all differ.
pub fn number_pattern(length: usize) -> Vec<u32> {
    (0..length as u32).map(|i| 0xC0DE_0000 + 7 * i).collect()
}

/// Numbers that stand before and behind an output, and do not belong to it.
const MARGIN: usize = 3;

/// Pairs the tickets of two opened tapes, into outputs with room for so many numbers: the pairs, and
/// what is left over on the first tape and on the second. Answers the counts and the outputs after
/// the call. A refused call must leave the outputs, and a call that is done must leave what stands
/// behind its numbers. With room for whole pairs the Rust call is made, too.
#[track_caller]
pub fn pair_tapes(
    first: &[u8],
    second: &[u8],
    rooms: [usize; 3],
) -> (Result<Paired, u8>, [Vec<u32>; 3]) {
    let mut twin_outputs = rooms.map(number_pattern);
    let [pairs, left_first, left_second] = &mut twin_outputs;
    let twin = pairing::pair_tapes(first, second, pairs, left_first, left_second);
    let twin_counts = twin.map(|paired| [paired.pairs, paired.left_first, paired.left_second]);

    let lent = rooms.map(|room| number_pattern(room + 2 * MARGIN));
    let mut outputs = lent.clone();
    let [pairs, left_first, left_second] = &mut outputs;
    let ran = agree(
        "pair tapes",
        &[first, second],
        0,
        |_| {
            let paired = exports::pair_tapes(
                first,
                second,
                &mut pairs[MARGIN..][..rooms[0]],
                &mut left_first[MARGIN..][..rooms[1]],
                &mut left_second[MARGIN..][..rooms[2]],
            );
            let counts = [paired.pairs, paired.left_first, paired.left_second];
            if paired.refused == 0 {
                return Ok(counts.map(|count| count as usize));
            }
            assert_eq!(counts, [0; 3], "beside a refusal");
            Err(u8::try_from(paired.refused).expect("a number of document 02"))
        },
        |_| twin_counts,
    );
    let written = match ran.answer {
        Ok([pairs, left_first, left_second]) => [2 * pairs, left_first, left_second],
        Err(_) => [0; 3],
    };
    for (which, name) in ["pairs", "left_first", "left_second"].iter().enumerate() {
        let (before, after) = (&lent[which], &outputs[which]);
        let (start, behind) = (MARGIN, MARGIN + written[which]);
        assert_eq!(after[..start], before[..start], "before {name}");
        assert_eq!(after[behind..], before[behind..], "behind {name}");
        let (twin, written) = (&twin_outputs[which], written[which]);
        assert_eq!(after[start..behind], twin[..written], "{name}");
    }

    if rooms[0].is_multiple_of(2) {
        let mut outputs = rooms.map(number_pattern);
        let [pairs, left_first, left_second] = &mut outputs;
        let (whole, _) = pairs.as_chunks_mut();
        let by_wrapper = haul_tape::pair_tapes(first, second, whole, left_first, left_second)
            .map(|paired| [paired.pairs, paired.left_first, paired.left_second])
            .map_err(|refusal| refusal.number());
        assert_eq!(by_wrapper, twin_counts, "pair tapes, by the Rust call");
        assert_eq!(outputs, twin_outputs, "outputs of the Rust call");
    }
    (twin, twin_outputs)
}

/// Pairs the tickets of two opened tapes, into outputs that are just long enough, longer by some, and
/// too short, and into vectors. Answers what is paired and what is left over.
#[track_caller]
pub fn pairing(first: &[u8], second: &[u8]) -> Result<Pairing, u8> {
    let twin = pairing::pairing(first, second);
    let by_wrapper = haul_tape::pair_tapes_to_vecs(first, second)
        .map(|found| Pairing {
            pairs: found.pairs,
            left_first: found.left_first,
            left_second: found.left_second,
        })
        .map_err(|refusal| refusal.number());
    assert_eq!(by_wrapper, twin, "pair tapes, into vectors");
    let found = match twin {
        Ok(found) => found,
        Err(number) => {
            for rooms in [[0; 3], [4, 3, 3], [7, 0, 1]] {
                let (answer, _) = pair_tapes(first, second, rooms);
                assert_eq!(answer, Err(number), "rooms {rooms:?}");
            }
            return Err(number);
        }
    };
    let lists = [&found.pairs.concat(), &found.left_first, &found.left_second];
    let just = lists.map(Vec::len);
    let done = Paired {
        pairs: found.pairs.len(),
        left_first: found.left_first.len(),
        left_second: found.left_second.len(),
    };
    for more in [[0, 0, 0], [1, 0, 0], [2, 1, 0], [0, 0, 1], [5, 9, 2]] {
        let rooms = std::array::from_fn(|i| just[i] + more[i]);
        let (answer, outputs) = pair_tapes(first, second, rooms);
        assert_eq!(answer, Ok(done), "rooms {rooms:?}");
        for (output, list) in outputs.iter().zip(lists) {
            assert_eq!(&output[..list.len()], list);
        }
    }
    for which in 0..3 {
        for fewer in 1..=just[which].min(2) {
            for more in [0, 4] {
                let mut rooms = just.map(|room| room + more);
                rooms[which] = just[which] - fewer;
                let (answer, _) = pair_tapes(first, second, rooms);
                assert_eq!(answer, Err(6), "rooms {rooms:?}");
            }
        }
    }
    Ok(found)
}
