//! Lists of writer calls.

use haul_tape::Ticket;
use haul_tape_differential::calls::{WriterCall, Writers};
use haul_tape_differential::random::{last_second, tare_above_gross, Random};
use haul_tape_twin::tape::WriterPhase;

/// Any call, likely to fit the phase; most arguments are good.
fn random_call(random: &mut Random, phase: WriterPhase) -> WriterCall {
    let choice = match phase {
        _ if random.once_in(6) => random.below(3),
        WriterPhase::Fresh => 0,
        WriterPhase::Open => random.pick(&[1, 1, 1, 1, 1, 1, 1, 2]),
        WriterPhase::Closed => random.below(3),
    };
    let room = |random: &mut Random, length: usize| match random.below(6) {
        0 => random.below(length),
        1 => length - 1,
        2 => length + random.below(30),
        _ => length,
    };
    match choice {
        0 => {
            let key_bytes = random.pick(&[16, 16, 16, 16, 0, 15, 17]);
            WriterCall::Start {
                key: random.bytes(key_bytes),
                head: if random.once_in(4) {
                    random.edge_head()
                } else {
                    random.head()
                },
                room: room(random, 9),
            }
        }
        1 => WriterCall::Add {
            ticket: if random.once_in(3) {
                random.edge_ticket()
            } else {
                random.ticket()
            },
            room: room(random, 13),
        },
        _ => WriterCall::Finish {
            room: room(random, 16),
        },
    }
}

#[test]
fn random_lists() {
    let mut random = Random::for_test();
    let mut refused = [0; 9];
    for _ in 0..5_000 {
        let mut writers = Writers::fresh();
        for _ in 0..2 + random.below(28) {
            let call = random_call(&mut random, writers.twin().phase());
            if let Err(number) = writers.call(&call).answer {
                refused[usize::from(number)] += 1;
            }
            if writers.twin().phase() == WriterPhase::Closed && random.once_in(3) {
                break;
            }
        }
    }
    println!("refused, by number: {:?}", &refused[1..]);
    assert!([1, 2, 3, 4, 6].iter().all(|&number| refused[number] > 0));
}

/// Writers with a start that was accepted.
fn started(random: &mut Random) -> Writers {
    let mut writers = Writers::fresh();
    let start = WriterCall::Start {
        key: random.bytes(16),
        head: random.head(),
        room: 9,
    };
    assert!(writers.call(&start).answer.is_ok());
    writers
}

/// Adds of trips back empty, and between them of tickets with tare one above gross, which are 4 even
/// where the output is too short.
#[test]
fn trips_back_empty() {
    let mut random = Random::for_test();
    for _ in 0..200 {
        let mut writers = started(&mut random);
        for added in 1..=10 {
            let empty = random.empty_trip();
            let above = tare_above_gross(empty);
            for (ticket, room, answer) in [
                (above, 13, Err(4)),
                (above, 12, Err(4)),
                (empty, 12, Err(6)),
                (empty, 13, Ok(13)),
            ] {
                let ran = writers.call(&WriterCall::Add { ticket, room });
                assert_eq!(ran.answer.map(|done| done.bytes), answer);
            }
            assert_eq!(writers.twin().tickets(), added);
        }
        let finish = WriterCall::Finish { room: 16 };
        assert!(writers.call(&finish).answer.is_ok());
    }
}

/// Adds of both forms in turn, and between them of tickets that are tipped a second too late for
/// their form or have a form that there is not.
#[test]
fn both_forms() {
    let mut random = Random::for_test();
    for _ in 0..200 {
        let mut writers = started(&mut random);
        for added in 1..=10 {
            let form = random.pick(&[1, 2]);
            let ticket = random.ticket_of_form(form);
            let late = Ticket {
                tipped: last_second(form) + 1,
                ..ticket
            };
            let other = Ticket {
                form: random.pick(&[0, 3, 15, 17, 18, 255]),
                ..ticket
            };
            let last = Ticket {
                tipped: last_second(form),
                ..ticket
            };
            for (ticket, room, answer) in [
                (late, 13, Err(4)),
                (late, 12, Err(4)),
                (other, 13, Err(4)),
                (last, 12, Err(6)),
                (last, 13, Ok(13)),
            ] {
                let ran = writers.call(&WriterCall::Add { ticket, room });
                assert_eq!(ran.answer.map(|done| done.bytes), answer);
            }
            assert_eq!(writers.twin().tickets(), added);
        }
        let finish = WriterCall::Finish { room: 16 };
        assert!(writers.call(&finish).answer.is_ok());
    }
}

#[test]
fn the_5_001st_ticket() {
    let mut random = Random::for_test();
    let mut writers = started(&mut random);
    let ticket = random.ticket();
    for _ in 0..5_000 {
        let add = WriterCall::Add {
            ticket: random.ticket(),
            room: 13,
        };
        assert!(writers.call(&add).answer.is_ok());
    }
    let broken = Ticket { form: 3, ..ticket };
    let late = Ticket {
        form: 2,
        tipped: 86_399,
        ..ticket
    };
    let later = Ticket {
        tipped: 86_400,
        ..late
    };
    let (empty, above) = (random.empty_trip(), tare_above_gross(ticket));
    for (ticket, room, number) in [
        (ticket, 13, 5),
        (ticket, 0, 5),
        (empty, 13, 5),
        (late, 13, 5),
        (broken, 13, 4),
        (later, 13, 4),
        (above, 13, 4),
    ] {
        let add = WriterCall::Add { ticket, room };
        assert_eq!(writers.call(&add).answer, Err(number));
    }
    let done = writers
        .call(&WriterCall::Finish { room: 16 })
        .answer
        .unwrap();
    assert_eq!((done.bytes, done.steps), (16, 3_144 + 8 * 65_000));
}
