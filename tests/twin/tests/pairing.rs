//! The tickets of two opened tapes in pairs (document 02, P7): cases made by hand, the order of the
//! numbers, and that the plain search has as many pairs as any pairing where no times fall.

mod common;
#[path = "common/plain_tapes.rs"]
mod plain_tapes;

use common::TICKET;
use haul_tape_twin::pairing::{may_pair, pair_tapes, pairing, search, times_fall};
use haul_tape_twin::pairing::{Paired, Pairing};
use haul_tape_twin::ticket::Ticket;
use plain_tapes::{plain, Values};

/// A ticket of this truck and tipped time, of form 1 where that has the time.
fn tipped(truck: u16, tipped: u32) -> Ticket {
    Ticket {
        form: if tipped > 43199 { 2 } else { 1 },
        truck,
        loaded: tipped.min(TICKET.loaded),
        tipped,
        ..TICKET
    }
}

/// Tickets of one truck, tipped at these times.
fn at(times: &[u32]) -> Vec<Ticket> {
    times.iter().map(|&time| tipped(5, time)).collect()
}

/// Tickets of these trucks, tipped at these times.
fn of(tickets: &[(u16, u32)]) -> Vec<Ticket> {
    let ticket = |&(truck, time): &(u16, u32)| tipped(truck, time);
    tickets.iter().map(ticket).collect()
}

/// What the two tapes are answered.
fn paired(first: &[Ticket], second: &[Ticket]) -> Result<Pairing, u8> {
    pairing(&plain(first), &plain(second))
}

fn found(pairs: &[[u32; 2]], left_first: &[u32], left_second: &[u32]) -> Result<Pairing, u8> {
    Ok(Pairing {
        pairs: pairs.to_vec(),
        left_first: left_first.to_vec(),
        left_second: left_second.to_vec(),
    })
}

#[test]
fn no_tickets() {
    assert_eq!(paired(&[], &[]), found(&[], &[], &[]));
    assert_eq!(paired(&at(&[7, 8]), &[]), found(&[], &[1, 2], &[]));
    assert_eq!(paired(&[], &at(&[7, 8])), found(&[], &[], &[1, 2]));
}

#[test]
fn one_ticket_each() {
    let pair = found(&[[1, 1]], &[], &[]);
    let none = found(&[], &[1], &[1]);
    for (first, second, expected) in [
        (4200, 4200, &pair),
        (4200, 4201, &pair),
        (4200, 4320, &pair),
        (4200, 4321, &none),
        (0, 120, &pair),
        (0, 121, &none),
        (43199, 43319, &pair),
        (43199, 43320, &none),
        (65535, 65536, &pair),
        (65500, 65620, &pair),
        (65500, 65621, &none),
        (4200, 65536 + 4200, &none),
        (0, 86399, &none),
        (86399, 86279, &pair),
        (86399, 86278, &none),
    ] {
        assert_eq!(&paired(&at(&[first]), &at(&[second])), expected);
        assert_eq!(&paired(&at(&[second]), &at(&[first])), expected);
    }
    // Another truck, by one and by the upper bit.
    for truck in [4, 6, 5 + 512, 1023] {
        assert_eq!(paired(&[TICKET], &of(&[(truck, 4200)])), none);
        assert_eq!(paired(&of(&[(truck, 4200)]), &[TICKET]), none);
    }
}

/// Truck and tipped time alone make a pair.
#[test]
fn other_fields_do_not_matter() {
    let other = Ticket {
        form: 2,
        shovel: 63,
        tip: 1,
        grade: 9,
        loaded: 0,
        gross: 0,
        tare: 0,
        ..TICKET
    };
    assert_eq!(paired(&[TICKET], &[other]), found(&[[1, 1]], &[], &[]));
    // Loaded close, tipped not.
    let late = Ticket {
        tipped: 4321,
        ..TICKET
    };
    assert_eq!(paired(&[TICKET], &[late]), found(&[], &[1], &[1]));
}

/// The partner that comes first, and not the one nearest in time; a later ticket has what is left.
#[test]
fn the_first_free_partner() {
    let around = at(&[900, 1000, 1100]);
    assert_eq!(
        paired(&at(&[1000]), &around),
        found(&[[1, 1]], &[], &[2, 3])
    );
    assert_eq!(
        paired(&at(&[1000, 1000]), &around),
        found(&[[1, 1], [2, 2]], &[], &[3])
    );
    // Two want the only one.
    assert_eq!(
        paired(&at(&[1000, 1010]), &at(&[1010])),
        found(&[[1, 1]], &[2], &[])
    );
    // The first of two cannot have the second's partner.
    assert_eq!(
        paired(&at(&[0, 130]), &at(&[130])),
        found(&[[2, 1]], &[1], &[])
    );
    assert_eq!(
        paired(&at(&[0, 120, 240]), &at(&[120, 240, 360])),
        found(&[[1, 1], [2, 2], [3, 3]], &[], &[])
    );
    assert_eq!(
        paired(&at(&[0, 120, 240]), &at(&[121, 241, 361])),
        found(&[[2, 1], [3, 2]], &[1], &[3])
    );
}

#[test]
fn equal_times() {
    let (two, three) = (at(&[700; 2]), at(&[700; 3]));
    assert_eq!(paired(&three, &two), found(&[[1, 1], [2, 2]], &[3], &[]));
    assert_eq!(paired(&two, &three), found(&[[1, 1], [2, 2]], &[], &[3]));
}

/// Pairs stand in the first tape's order, whatever that is in the second; between trucks times may
/// fall.
#[test]
fn several_trucks() {
    let first = of(&[(9, 5000), (5, 100), (7, 3000), (5, 150), (9, 5000), (8, 0)]);
    let second = of(&[(5, 160), (7, 3121), (9, 5120), (6, 0), (5, 280), (9, 5121)]);
    assert_eq!(
        paired(&first, &second),
        found(&[[1, 3], [2, 1]], &[3, 4, 5, 6], &[2, 4, 5, 6])
    );
    assert_eq!(
        paired(&second, &first),
        found(&[[1, 2], [3, 1]], &[2, 4, 5, 6], &[3, 4, 5, 6])
    );
}

#[test]
fn times_that_fall() {
    let good = at(&[100, 100, 200]);
    for falls in [
        at(&[1, 0]),
        at(&[43200, 43199]),
        at(&[65536, 65535]),
        at(&[86399, 0]),
        at(&[100, 200, 150]),
        at(&[100, 200, 50, 300]),
        of(&[(5, 100), (6, 0), (7, 0), (5, 99)]),
        of(&[(6, 0), (6, 1), (5, 7), (6, 2), (5, 6), (6, 3)]),
        of(&[(1023, 9), (1023, 8)]),
    ] {
        assert!(times_fall(&falls));
        assert_eq!(paired(&falls, &good), Err(12));
        assert_eq!(paired(&good, &falls), Err(12));
        assert_eq!(paired(&falls, &falls), Err(12));
        assert_eq!(paired(&falls, &[]), Err(12));
        assert_eq!(paired(&[], &falls), Err(12));
    }
    for rises in [at(&[0, 0, 0]), of(&[(5, 100), (6, 50), (5, 100), (6, 50)])] {
        assert!(!times_fall(&rises));
        assert!(paired(&rises, &good).is_ok());
    }
    // A later loading alone does not count.
    let loaded = |loaded| Ticket { loaded, ..TICKET };
    assert!(!times_fall(&[loaded(4200), loaded(0)]));
}

/// An output before a call.
fn lent(numbers: usize) -> Vec<u32> {
    (0..numbers as u32).map(|i| 0xAAAA_0000 + i).collect()
}

/// The answer with outputs of so many numbers. A refused call must leave them, and a call that is
/// done must write the lists at their start and nothing behind.
#[track_caller]
fn into(first: &[u8], second: &[u8], rooms: [usize; 3]) -> Result<Paired, u8> {
    let mut outputs = rooms.map(lent);
    let [pairs, left_first, left_second] = &mut outputs;
    let answer = pair_tapes(first, second, pairs, left_first, left_second);
    let written = match answer {
        Ok(_) => {
            let found = pairing(first, second).unwrap();
            [found.pairs.concat(), found.left_first, found.left_second]
        }
        Err(_) => [(); 3].map(|()| vec![]),
    };
    for ((output, written), room) in outputs.iter().zip(&written).zip(rooms) {
        let behind = &lent(room)[written.len()..];
        assert_eq!(output, &[&written[..], behind].concat());
    }
    answer
}

#[test]
fn outputs() {
    let first = plain(&at(&[0, 100, 1000, 2000, 3000]));
    let second = plain(&at(&[100, 110, 5000]));
    let done = Paired {
        pairs: 2,
        left_first: 3,
        left_second: 1,
    };
    for rooms in [[4, 3, 1], [5, 3, 1], [6, 3, 1], [4, 4, 2], [90, 3, 9]] {
        assert_eq!(into(&first, &second, rooms), Ok(done));
    }
    for rooms in [
        [3, 3, 1],
        [2, 3, 1],
        [4, 2, 1],
        [4, 3, 0],
        [0, 0, 0],
        [3, 90, 90],
        [90, 2, 90],
        [90, 90, 0],
    ] {
        assert_eq!(into(&first, &second, rooms), Err(6));
    }
    let nothing = Paired {
        pairs: 0,
        left_first: 0,
        left_second: 0,
    };
    assert_eq!(into(&[], &[], [0, 0, 0]), Ok(nothing));
    assert_eq!(into(&[], &[], [3, 1, 2]), Ok(nothing));
}

/// Each number is tried on both tapes before the next: 2, 8, 12, 6.
#[test]
fn the_order_of_the_numbers() {
    let good = plain(&at(&[100, 100]));
    let falls = plain(&at(&[100, 99]));
    let bad = [&falls[..], &[0; 13]].concat();
    let short = &bad[..38];
    let long = bad.repeat(1667);
    assert_eq!(long.len(), 13 * 5001);
    let tapes = [
        (0, &good[..]),
        (3, &falls),
        (2, &bad),
        (1, short),
        (1, &long),
    ];
    for (one, first) in tapes {
        for (other, second) in tapes {
            let wrong = [one, other].into_iter().filter(|&step| step > 0).min();
            let number = wrong.map(|step: usize| [2, 8, 12][step - 1]);
            assert_eq!(into(first, second, [4, 3, 3]).err(), number);
            assert_eq!(into(first, second, [0, 0, 0]), Err(number.unwrap_or(6)));
        }
    }
    // Tickets of either form that do not unpack, at any place.
    for (at, byte) in [(0, 0xF0), (0, 0x30), (1, 0x00), (12, 0xC1)] {
        for place in [0, 13] {
            let mut bad = plain(&[TICKET, TICKET]);
            bad[place + at] = byte;
            assert_eq!(into(&bad, &good, [9, 9, 9]), Err(8));
            assert_eq!(into(&good, &bad, [9, 9, 9]), Err(8));
        }
    }
}

#[test]
fn the_longest_tapes() {
    let one_time = plain(&at(&[4200; 5000]));
    let all = pairing(&one_time, &one_time).unwrap();
    let same: Vec<[u32; 2]> = (1..=5000).map(|i| [i, i]).collect();
    assert_eq!(all.pairs, same);
    assert_eq!((all.left_first, all.left_second), (vec![], vec![]));

    // Every 17 seconds, and the same 121 seconds later.
    let every: Vec<u32> = (0..5000).map(|i| 17 * i).collect();
    let later: Vec<u32> = every.iter().map(|time| time + 121).collect();
    let answer = pairing(&plain(&at(&every)), &plain(&at(&later))).unwrap();
    assert_eq!(answer.pairs.len(), 4999);
    assert_eq!(answer.pairs[0], [2, 1]);
    assert_eq!(
        (answer.left_first, answer.left_second),
        (vec![1], vec![5000])
    );

    let more = [&one_time[..], &one_time[..13]].concat();
    assert_eq!(pairing(&more, &one_time), Err(2));
    assert_eq!(pairing(&one_time, &more), Err(2));
}

/// The most pairs that any pairing of the tickets from `i` on has, by trying every partner and none.
fn most_by_full_search(first: &[Ticket], second: &[Ticket], i: usize, free: &mut [bool]) -> usize {
    if i == first.len() {
        return 0;
    }
    let mut most = most_by_full_search(first, second, i + 1, free);
    for j in 0..second.len() {
        if free[j] && may_pair(&first[i], &second[j]) {
            free[j] = false;
            most = most.max(1 + most_by_full_search(first, second, i + 1, free));
            free[j] = true;
        }
    }
    most
}

/// The most pairs that any pairing has, by augmenting paths: each ticket of the first in turn gets a
/// partner if those before it can be given others.
fn most_by_paths(first: &[Ticket], second: &[Ticket]) -> usize {
    fn place(
        i: usize,
        first: &[Ticket],
        second: &[Ticket],
        tried: &mut [bool],
        taken_by: &mut [Option<usize>],
    ) -> bool {
        for j in 0..second.len() {
            if tried[j] || !may_pair(&first[i], &second[j]) {
                continue;
            }
            tried[j] = true;
            let movable = match taken_by[j] {
                None => true,
                Some(other) => place(other, first, second, tried, taken_by),
            };
            if movable {
                taken_by[j] = Some(i);
                return true;
            }
        }
        false
    }
    let mut taken_by = vec![None; second.len()];
    let placed = |&i: &usize| {
        let mut tried = vec![false; second.len()];
        place(i, first, second, &mut tried, &mut taken_by)
    };
    (0..first.len()).filter(placed).count()
}

/// Sees that a pairing keeps the rules, and that each ticket stands in it once and in its order.
#[track_caller]
fn keeps_the_rules(first: &[Ticket], second: &[Ticket], pairing: &Pairing) {
    let of_first: Vec<u32> = pairing.pairs.iter().map(|pair| pair[0]).collect();
    let of_second: Vec<u32> = pairing.pairs.iter().map(|pair| pair[1]).collect();
    for [i, j] in &pairing.pairs {
        let (a, b) = (&first[*i as usize - 1], &second[*j as usize - 1]);
        assert_eq!(a.truck, b.truck);
        assert!(a.tipped <= b.tipped + 120 && b.tipped <= a.tipped + 120);
    }
    assert!(of_first.is_sorted());
    assert!(pairing.left_first.is_sorted() && pairing.left_second.is_sorted());
    for (paired, left, tickets) in [
        (of_first, &pairing.left_first, first),
        (of_second, &pairing.left_second, second),
    ] {
        let mut positions = [&paired[..], left].concat();
        positions.sort();
        let all: Vec<u32> = (1..=tickets.len() as u32).collect();
        assert_eq!(positions, all);
    }
}

/// All tapes of one truck with up to `most` tickets at these times, in any order.
fn all_tapes(times: &[u32], most: usize) -> Vec<Vec<Ticket>> {
    let mut all: Vec<Vec<u32>> = vec![vec![]];
    let mut last = all.clone();
    for _ in 0..most {
        let longer = |tape: &Vec<u32>| {
            let tape = tape.clone();
            times.iter().map(move |&time| [&tape[..], &[time]].concat())
        };
        last = last.iter().flat_map(longer).collect();
        all.extend(last.clone());
    }
    all.iter().map(|times| at(times)).collect()
}

/// All short tapes of one truck whose times do not fall, at times around 120 seconds apart.
#[test]
fn all_short_tapes() {
    let times = [0, 60, 120, 121, 240, 241];
    let mut tapes = all_tapes(&times, 4);
    tapes.retain(|tape| !times_fall(tape));
    assert_eq!(tapes.len(), 1 + 6 + 21 + 56 + 126);
    let mut by_pairs = [0; 5];
    for first in &tapes {
        for second in &tapes {
            let pairing = search(first, second);
            keeps_the_rules(first, second, &pairing);
            let most = most_by_full_search(first, second, 0, &mut [true; 4][..second.len()]);
            assert_eq!(pairing.pairs.len(), most);
            assert_eq!(most_by_paths(first, second), most);
            by_pairs[most] += 1;
        }
    }
    println!("tapes, by their pairs: {by_pairs:?}");
    assert!(by_pairs.iter().all(|&some| some > 400), "{by_pairs:?}");
}

/// Among all short tapes whose times do fall, on one tape or on both, some have a pairing with more
/// pairs than the search finds: hence number 12.
#[test]
fn fewer_where_times_fall() {
    let tapes = all_tapes(&[0, 120, 240, 300], 3);
    // By where times fall: on the first, on the second, on both; as many pairs, fewer.
    let mut seen = [[0; 2]; 3];
    for first in &tapes {
        for second in &tapes {
            let falls = match (times_fall(first), times_fall(second)) {
                (false, false) => continue,
                (true, false) => 0,
                (false, true) => 1,
                (true, true) => 2,
            };
            let pairs = search(first, second).pairs.len();
            let most = most_by_full_search(first, second, 0, &mut [true; 3][..second.len()]);
            assert!(pairs <= most);
            seen[falls][usize::from(pairs < most)] += 1;
            assert_eq!(paired(first, second), Err(12));
        }
    }
    println!("as many and fewer, by where times fall: {seen:?}");
    assert!(seen.iter().flatten().all(|&some| some > 0), "{seen:?}");

    // Times fall on the first tape alone, and on the second alone.
    for (first, second) in [
        (at(&[120, 0]), at(&[0, 240])),
        (at(&[120, 300]), at(&[240, 0])),
    ] {
        assert_eq!(search(&first, &second).pairs, [[1, 1]]);
        assert_eq!(most_by_paths(&first, &second), 2);
        assert_eq!(paired(&first, &second), Err(12));
    }
}

impl Values {
    /// A tape of up to `most` tickets of a few trucks, with times that are close and do not fall for
    /// a truck. Its forms are mixed.
    fn tape(&mut self, most: u32, trucks: u32, from: u32) -> Vec<Ticket> {
        let mut clocks = vec![from; trucks as usize];
        let number = self.below(most + 1);
        let ticket = |_| {
            let truck = self.below(trucks);
            let clock = &mut clocks[truck as usize];
            *clock += match self.below(4) {
                0 => 0,
                1 => 118 + self.below(5),
                _ => self.below(150),
            };
            let form = if *clock > 43199 { 2 } else { 1 + self.below(2) };
            Ticket {
                form: form as u8,
                ..tipped(1 + truck as u16, *clock)
            }
        };
        (0..number).map(ticket).collect()
    }
}

/// Thousands of small tapes of few trucks and close times: as many pairs as any pairing has, in
/// either order of the tapes.
#[test]
fn random_tapes() {
    let mut values = Values(7);
    let (mut with_pairs, mut left_over, mut wanted) = (0, 0, 0);
    for _ in 0..20_000 {
        let trucks = 1 + values.below(3);
        let most = [4, 7, 12][values.below(3) as usize];
        let from = [0, 43_000, 65_400][values.below(3) as usize];
        let later = [0, 0, 50, 120, 121][values.below(5) as usize];
        let first = values.tape(most, trucks, from);
        let second = values.tape(most, trucks, from + later);
        let pairing = paired(&first, &second).unwrap();
        assert_eq!(pairing, search(&first, &second));
        keeps_the_rules(&first, &second, &pairing);
        let most = most_by_paths(&first, &second);
        assert_eq!(pairing.pairs.len(), most, "{first:?} {second:?}");
        if first.len() <= 6 && second.len() <= 6 {
            let mut free = vec![true; second.len()];
            assert_eq!(most_by_full_search(&first, &second, 0, &mut free), most);
        }
        let turned_round = paired(&second, &first).unwrap();
        assert_eq!(turned_round.pairs.len(), most);

        with_pairs += u32::from(most > 0);
        left_over += u32::from(most < first.len().min(second.len()));
        // A ticket is left over although some partner was in reach.
        wanted += u32::from(pairing.left_first.iter().any(|&i| {
            let ticket = &first[i as usize - 1];
            second.iter().any(|partner| may_pair(ticket, partner))
        }));
    }
    println!("pairs {with_pairs}, left on both {left_over}, partner taken {wanted}");
    assert!(with_pairs > 10_000 && left_over > 5_000 && wanted > 5_000);
}

/// Random tapes whose tickets are shuffled: where times fall the tapes are refused, and sometimes the
/// search has fewer pairs than another pairing, but never where none fall.
#[test]
fn random_tapes_shuffled() {
    let mut values = Values(8);
    let mut shuffled = |trucks| {
        let mut tape = values.tape(7, trucks, 0);
        for left in (2..=tape.len()).rev() {
            tape.swap(left - 1, values.below(left as u32) as usize);
        }
        tape
    };
    let (mut refused, mut fewer) = (0, 0);
    for round in 0..10_000 {
        let trucks = 1 + round % 3;
        let (first, second) = (shuffled(trucks), shuffled(trucks));
        let pairs = search(&first, &second).pairs.len();
        let most = most_by_paths(&first, &second);
        let falls = times_fall(&first) || times_fall(&second);
        assert!(pairs == most || falls && pairs < most);
        assert_eq!(paired(&first, &second).err(), falls.then_some(12));
        refused += u32::from(falls);
        fewer += u32::from(pairs < most);
    }
    println!("refused {refused}, fewer pairs {fewer}");
    assert!(refused > 5_000 && fewer > 100);
}
