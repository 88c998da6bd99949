//! The tickets of two opened tapes in pairs: random tapes of few trucks and close times, times that
//! fall, refused tapes at every place, and outputs of every length.

use haul_tape::Ticket;
use haul_tape_differential::both;
use haul_tape_differential::calls::write_tape;
use haul_tape_differential::kit::pack_anyway;
use haul_tape_differential::random::{tare_above_gross, turned, Random};
use haul_tape_twin::pairing::{Paired, Pairing};

/// A ticket as these tests need it: truck and tipped time.
type Tip = (u16, u32);

/// The opened tape with these tickets, their other fields random; the forms are mixed where form 1
/// has the time.
fn tape(random: &mut Random, tips: &[Tip]) -> Vec<u8> {
    let packed = |&(truck, tipped): &Tip| random.ticket_tipped(truck, tipped).pack().unwrap();
    tips.iter().flat_map(packed).collect()
}

/// A tape of one truck.
fn tape_at(random: &mut Random, truck: u16, times: &[u32]) -> Vec<u8> {
    let tips: Vec<Tip> = times.iter().map(|&time| (truck, time)).collect();
    tape(random, &tips)
}

/// Truck and tipped time of every ticket, as the library unpacks them.
fn tips_of(plain: &[u8]) -> Vec<Tip> {
    let tip = |packed| {
        let ticket = Ticket::unpack(packed).expect("a ticket");
        (ticket.truck, ticket.tipped)
    };
    plain.chunks(13).map(tip).collect()
}

/// Whether a truck's times fall, by the last time of each truck.
fn falls(tips: &[Tip]) -> bool {
    let mut last = [0; 1_024];
    tips.iter().any(|&(truck, time)| {
        let before = std::mem::replace(&mut last[usize::from(truck)], time);
        time < before
    })
}

fn may_pair(a: Tip, b: Tip) -> bool {
    a.0 == b.0 && a.1.abs_diff(b.1) <= 120
}

/// Sees that a pairing keeps document 02's rules: pairs of one truck, at most 120 seconds apart and in
/// the first tape's order, every ticket once, leftovers in their order, and no partner that was free.
#[track_caller]
fn keeps_the_rules(first: &[Tip], second: &[Tip], pairing: &Pairing) {
    let of_first: Vec<u32> = pairing.pairs.iter().map(|pair| pair[0]).collect();
    let of_second: Vec<u32> = pairing.pairs.iter().map(|pair| pair[1]).collect();
    assert!(of_first.is_sorted());
    assert_eq!(of_first.len() + pairing.left_first.len(), first.len());
    assert_eq!(of_second.len() + pairing.left_second.len(), second.len());
    for (paired, left, tickets) in [
        (&of_first, &pairing.left_first, first.len()),
        (&of_second, &pairing.left_second, second.len()),
    ] {
        assert!(left.is_sorted());
        let mut all = [&paired[..], left].concat();
        all.sort();
        assert!(all.into_iter().eq(1..=tickets as u32));
    }
    // In turn: the partner taken is the first that is free, and a ticket left over has none.
    let mut free = vec![true; second.len()];
    let mut pairs = pairing.pairs.iter();
    let mut left = pairing.left_first.iter().copied().peekable();
    for (i, &ticket) in first.iter().enumerate() {
        let partner = (0..second.len()).find(|&j| free[j] && may_pair(ticket, second[j]));
        if left.next_if_eq(&(i as u32 + 1)).is_some() {
            assert_eq!(partner, None, "a free partner of ticket {}", i + 1);
            continue;
        }
        let &[of_first, of_second] = pairs.next().expect("a pair");
        let taken = of_second as usize - 1;
        assert_eq!((of_first as usize, partner), (i + 1, Some(taken)));
        free[taken] = false;
    }
}

/// Pairs two tapes, in both orders, and sees that the answers keep the rules and have as many pairs.
#[track_caller]
fn paired(first: &[u8], second: &[u8]) -> Pairing {
    let (of_first, of_second) = (tips_of(first), tips_of(second));
    let pairing = both::pairing(first, second).expect("the tapes are paired");
    keeps_the_rules(&of_first, &of_second, &pairing);
    let turned_round = both::pairing(second, first).expect("the tapes are paired");
    keeps_the_rules(&of_second, &of_first, &turned_round);
    assert_eq!(turned_round.pairs.len(), pairing.pairs.len());
    assert_eq!(turned_round.left_first.len(), pairing.left_second.len());
    assert_eq!(turned_round.left_second.len(), pairing.left_first.len());
    pairing
}

/// Two tapes that are refused with this number, in both orders.
#[track_caller]
fn refused(first: &[u8], second: &[u8], number: u8) {
    assert_eq!(both::pairing(first, second), Err(number));
    assert_eq!(both::pairing(second, first), Err(number));
}

fn found(pairs: &[[u32; 2]], left_first: &[u32], left_second: &[u32]) -> Pairing {
    Pairing {
        pairs: pairs.to_vec(),
        left_first: left_first.to_vec(),
        left_second: left_second.to_vec(),
    }
}

/// Positions from 1 on.
fn positions(tickets: usize) -> Vec<u32> {
    (1..=tickets as u32).collect()
}

/// Each position with itself, from 1 on.
fn each_with_itself(tickets: usize) -> Vec<[u32; 2]> {
    positions(tickets).into_iter().map(|i| [i, i]).collect()
}

/// Any trucks, no two of them the same.
fn trucks<const N: usize>(random: &mut Random) -> [u16; N] {
    let mut every: Vec<u16> = (1..=1_023).collect();
    random.shuffle(&mut every);
    every[..N].try_into().expect("some of the trucks")
}

/// A number of seconds between two tips of a truck: often around 120, or none.
fn seconds(random: &mut Random) -> u32 {
    match random.below(8) {
        0 | 1 => 0,
        2 | 3 => random.pick(&[119, 120, 121]),
        4 => random.pick(&[239, 240, 241, 242]),
        5 => random.between(0, 600),
        _ => random.between(1, 100),
    }
}

/// Tickets of these trucks, in any order of the trucks; the times of each do not fall.
fn tips(random: &mut Random, trucks: &[u16], number: usize, from: u32) -> Vec<Tip> {
    let mut clocks = vec![from; trucks.len()];
    let tip = |_| {
        let which = random.below(trucks.len());
        clocks[which] = (clocks[which] + seconds(random)).min(86_399);
        (trucks[which], clocks[which])
    };
    (0..number).map(tip).collect()
}

/// The same for two tapes, on each one of these numbers of tickets.
fn on_two(random: &mut Random, trucks: &[u16], numbers: &[usize], from: u32) -> [Vec<Tip>; 2] {
    [(); 2].map(|()| {
        let number = random.pick(numbers);
        tips(random, trucks, number, from)
    })
}

/// The same tips by another clock: each time changed by as much, some by more, with times that would
/// fall raised; some tickets lost, and some swapped with a neighbour of another truck.
fn by_another_clock(random: &mut Random, tips: &[Tip]) -> Vec<Tip> {
    let drift = random.pick(&[0, 1, 60, 119, 120, 121, 150]);
    let later = random.once_in(2);
    let mut last = [0; 1_024];
    let mut others = Vec::new();
    for &(truck, time) in tips {
        let time = match later {
            true => time + drift,
            false => time.saturating_sub(drift),
        };
        let jitter = random.pick(&[0, 0, 0, 1, 5, 60]);
        let last = &mut last[usize::from(truck)];
        *last = (time + jitter).clamp(*last, 86_399);
        if !random.once_in(6) {
            others.push((truck, *last));
        }
    }
    for _ in 0..random.below(4) {
        let Some(place) = others.len().checked_sub(2).map(|n| random.below(n + 1)) else {
            break;
        };
        if others[place].0 != others[place + 1].0 {
            others.swap(place, place + 1);
        }
    }
    others
}

/// What came up of pairs of tapes.
#[derive(Default)]
struct Tally(Vec<(&'static str, u32)>);

impl Tally {
    fn add(&mut self, what: &'static str, came_up: bool) {
        match self.0.iter_mut().find(|(name, _)| *name == what) {
            Some((_, times)) => *times += u32::from(came_up),
            None => self.0.push((what, u32::from(came_up))),
        }
    }

    fn see(&mut self, first: &[u8], second: &[u8], pairing: &Pairing) {
        let (a, b) = (tips_of(first), tips_of(second));
        let Pairing {
            pairs,
            left_first,
            left_second,
        } = pairing;
        let of = |pair: &[u32; 2]| pair.map(|position| position as usize - 1);
        let apart = |pair: &[u32; 2]| {
            let [i, j] = of(pair);
            a[i].1.abs_diff(b[j].1)
        };
        let some_tickets = !a.is_empty() && !b.is_empty();
        self.add("a tape has no ticket", !some_tickets);
        self.add("no pair", some_tickets && pairs.is_empty());
        let (left_a, left_b) = (!left_first.is_empty(), !left_second.is_empty());
        let some = !pairs.is_empty();
        self.add("nothing is left over", some && !left_a && !left_b);
        self.add("left over on the first", some && left_a && !left_b);
        self.add("left over on the second", some && !left_a && left_b);
        self.add("left over on both", some && left_a && left_b);
        self.add("120 apart", pairs.iter().any(|pair| apart(pair) == 120));
        self.add("at equal times", pairs.iter().any(|pair| apart(pair) == 0));
        let near = |i: u32, j: u32| {
            let (a, b) = (a[i as usize - 1], b[j as usize - 1]);
            a.0 == b.0 && a.1.abs_diff(b.1) == 121
        };
        let mut left = left_first.iter();
        let near = left.any(|&i| left_second.iter().any(|&j| near(i, j)));
        self.add("left over, 121 apart", near);
        let forms = |pair: &[u32; 2]| {
            let [i, j] = of(pair);
            [first[13 * i] >> 4, second[13 * j] >> 4]
        };
        for (what, of) in [
            ("both of form 1", [1, 1]),
            ("of form 1 and 2", [1, 2]),
            ("of form 2 and 1", [2, 1]),
            ("both of form 2", [2, 2]),
        ] {
            self.add(what, pairs.iter().any(|pair| forms(pair) == of));
        }
        let in_order = pairs.is_sorted_by_key(|pair| pair[1]);
        self.add("in another order on the second", !in_order);
        let wanted = |&i: &u32| b.iter().any(|&tip| may_pair(a[i as usize - 1], tip));
        self.add("the partner is taken", left_first.iter().any(wanted));
        let nearest = |pair: &[u32; 2]| {
            let mut free = left_second.iter().map(|&j| b[j as usize - 1]);
            let ticket = a[of(pair)[0]];
            free.all(|tip| tip.0 != ticket.0 || tip.1.abs_diff(ticket.1) >= apart(pair))
        };
        self.add("not the nearest", !pairs.iter().all(nearest));
    }

    /// Sees that all came up, each so many times.
    fn check(&self, at_least: u32) {
        for (what, times) in &self.0 {
            println!("{what}: {times}");
        }
        for (what, times) in &self.0 {
            assert!(*times >= at_least, "{what}: {times}");
        }
    }
}

/// Thousands of tapes of few trucks and close times, by two clocks or by chance.
#[test]
fn random_tapes() {
    let mut random = Random::for_test();
    let mut tally = Tally::default();
    for _ in 0..6_000 {
        let some: [u16; 4] = trucks(&mut random);
        let some = &some[..1 + random.below(4)];
        let from = random.pick(&[0, 0, 4_200, 43_000, 43_100, 65_400, 86_000]);
        let [a, b] = [(); 2].map(|()| random.pick(&[0, 1, 2, 3, 5, 8, 13, 30]));
        let on_first = tips(&mut random, some, a, from);
        let on_second = match random.once_in(2) {
            true => by_another_clock(&mut random, &on_first),
            false => tips(&mut random, some, b, from + 60),
        };
        let first = tape(&mut random, &on_first);
        let second = tape(&mut random, &on_second);
        let pairing = paired(&first, &second);
        tally.see(&first, &second, &pairing);
    }
    tally.check(20);
}

/// One ticket each, of one truck, every number of seconds apart up to 130 and some more.
#[test]
fn seconds_apart() {
    let mut random = Random::for_test();
    let more = [150, 240, 1_000, 43_200, 65_536, 65_537, 65_656, 86_279];
    for apart in (0..=130).chain(more) {
        for early in [0, 1, 43_079, 43_080, 65_415, 65_535, 86_399 - apart] {
            let late = early + apart;
            if late > 86_399 {
                continue;
            }
            let [truck] = trucks(&mut random);
            let first = tape(&mut random, &[(truck, early)]);
            let second = tape(&mut random, &[(truck, late)]);
            let expected = match apart <= 120 {
                true => found(&[[1, 1]], &[], &[]),
                false => found(&[], &[1], &[1]),
            };
            assert_eq!(paired(&first, &second), expected, "{early} and {late}");
            assert_eq!(paired(&second, &first), expected, "{late} and {early}");
        }
    }
}

/// At one time, every truck against itself and against others.
#[test]
fn trucks_apart() {
    let mut random = Random::for_test();
    for truck in 1..=1_023 {
        let time = random.between(0, 86_399);
        let first = tape(&mut random, &[(truck, time)]);
        let second = tape(&mut random, &[(truck, time)]);
        assert_eq!(paired(&first, &second), found(&[[1, 1]], &[], &[]));
        let one_bit = truck ^ 1 << random.below(10);
        let [any] = trucks(&mut random);
        for other in [one_bit, any] {
            if other == truck || other == 0 {
                continue;
            }
            let second = tape(&mut random, &[(other, time)]);
            assert_eq!(paired(&first, &second), found(&[], &[1], &[1]));
        }
    }
}

#[test]
fn no_tickets() {
    let mut random = Random::for_test();
    assert_eq!(paired(&[], &[]), found(&[], &[], &[]));
    let every: [u16; 40] = trucks(&mut random);
    for number in [1, 2, 3, 50, 5_000] {
        let tips = tips(&mut random, &every, number, 0);
        let some = tape(&mut random, &tips);
        let all = positions(number);
        assert_eq!(paired(&some, &[]), found(&[], &all, &[]));
        assert_eq!(paired(&[], &some), found(&[], &[], &all));
    }
}

/// Some tickets of one truck at one time on either tape: as many pairs as the fewer.
#[test]
fn equal_times() {
    let mut random = Random::for_test();
    for a in 0..12 {
        for b in 0..12 {
            let [truck] = trucks(&mut random);
            let time = random.between(0, 86_399);
            let later = (time + random.below(121) as u32).min(86_399);
            let first = tape_at(&mut random, truck, &vec![time; a]);
            let second = tape_at(&mut random, truck, &vec![later; b]);
            let pairs = a.min(b);
            let expected = found(
                &each_with_itself(pairs),
                &positions(a)[pairs..],
                &positions(b)[pairs..],
            );
            assert_eq!(paired(&first, &second), expected);
        }
    }
}

/// Tickets that want the same partner: the first of them has it. And the partner that comes first is
/// taken, and not the nearest.
#[test]
fn wanted_by_two() {
    let mut random = Random::for_test();
    for (first, second, expected) in [
        (&[500, 510][..], &[510][..], found(&[[1, 1]], &[2], &[])),
        (&[500, 620], &[560], found(&[[1, 1]], &[2], &[])),
        (&[500, 621], &[621], found(&[[2, 1]], &[1], &[])),
        (&[500], &[380, 500], found(&[[1, 1]], &[], &[2])),
        (&[500], &[379, 500], found(&[[1, 2]], &[], &[1])),
        (&[500], &[400, 500, 600], found(&[[1, 1]], &[], &[2, 3])),
        (
            &[500, 500],
            &[400, 500, 600],
            found(&[[1, 1], [2, 2]], &[], &[3]),
        ),
        (
            &[0, 120, 240],
            &[120, 240, 360],
            found(&[[1, 1], [2, 2], [3, 3]], &[], &[]),
        ),
        (
            &[0, 120, 240],
            &[121, 241, 361],
            found(&[[2, 1], [3, 2]], &[1], &[3]),
        ),
        (
            &[0, 100, 200, 300],
            &[220, 220],
            found(&[[2, 1], [3, 2]], &[1, 4], &[]),
        ),
    ] {
        for later in [0, 43_000, 65_400, 86_399 - 621] {
            let [truck] = trucks(&mut random);
            let [first, second] = [first, second].map(|times| {
                let times: Vec<u32> = times.iter().map(|time| time + later).collect();
                tape_at(&mut random, truck, &times)
            });
            assert_eq!(paired(&first, &second), expected);
        }
    }
}

/// A tape against itself, and against the same by a clock that is at most 120 seconds off: each ticket
/// with itself.
#[test]
fn the_same_tape() {
    let mut random = Random::for_test();
    for number in [0, 1, 2, 5, 40, 40, 40, 40, 300, 300, 5_000] {
        let some: [u16; 7] = trucks(&mut random);
        let on_first = tips(&mut random, &some, number, 200);
        let first = tape(&mut random, &on_first);
        let expected = found(&each_with_itself(number), &[], &[]);
        assert_eq!(paired(&first, &first), expected);
        for off in [1, 119, 120] {
            let earlier: Vec<Tip> = on_first.iter().map(|&(k, time)| (k, time - off)).collect();
            let second = tape(&mut random, &earlier);
            assert_eq!(paired(&first, &second), expected);
        }
    }
}

/// 5,000 tickets of one truck on both: at one time, at times that rise, 120 and 121 seconds apart, and
/// with a partner for the first, for the last and for none.
#[test]
fn the_most_tickets_of_one_truck() {
    let mut random = Random::for_test();
    let [truck] = trucks(&mut random);
    let mut tape_of = |time: &dyn Fn(u32) -> u32| {
        let times: Vec<u32> = (0..5_000).map(time).collect();
        tape_at(&mut random, truck, &times)
    };
    let same = tape_of(&|_| 43_000);
    let near = tape_of(&|_| 43_120);
    let far = tape_of(&|_| 43_121);
    let all = positions(5_000);
    let every_one = found(&each_with_itself(5_000), &[], &[]);
    assert_eq!(paired(&same, &same), every_one);
    assert_eq!(paired(&same, &near), every_one);
    assert_eq!(paired(&same, &far), found(&[], &all, &all));

    let rising = tape_of(&|i| 17 * i);
    assert_eq!(paired(&rising, &tape_of(&|i| 17 * i + 120)), every_one);
    let shifted = paired(&rising, &tape_of(&|i| 17 * i + 121));
    assert_eq!(shifted.pairs.len(), 4_999);
    assert_eq!(
        (shifted.pairs[0], shifted.pairs[4_998]),
        ([2, 1], [5_000, 4_999])
    );

    let last = tape_of(&|i| if i < 4_999 { 1_000 } else { 43_000 });
    assert_eq!(
        paired(&last, &same),
        found(&[[5_000, 1]], &all[..4_999], &all[1..])
    );
    let one = same[..13].to_vec();
    assert_eq!(paired(&same, &one), found(&[[1, 1]], &all[1..], &[]));
    assert_eq!(
        paired(&last, &one),
        found(&[[5_000, 1]], &all[..4_999], &[])
    );
    // Falls at the last ticket alone.
    let falls = tape_of(&|i| if i < 4_999 { 43_000 } else { 42_999 });
    refused(&falls, &same, 12);
    refused(&falls, &falls, 12);
    let more = [&same[..], &one].concat();
    refused(&more, &same, 2);
}

/// 5,000 tickets of 1,000 trucks on both, by two clocks.
#[test]
fn the_most_tickets_of_many_trucks() {
    let mut random = Random::for_test();
    for round in 0..3 {
        let some: [u16; 1_000] = trucks(&mut random);
        let from = random.pick(&[0, 42_000, 65_000]);
        let on_first = tips(&mut random, &some, 5_000, from);
        let on_second = match round {
            0 => tips(&mut random, &some, 5_000, from),
            _ => by_another_clock(&mut random, &on_first),
        };
        let first = tape(&mut random, &on_first);
        let second = tape(&mut random, &on_second);
        let pairing = paired(&first, &second);
        println!(
            "{} pairs, left over {} and {}",
            pairing.pairs.len(),
            pairing.left_first.len(),
            pairing.left_second.len()
        );
        assert!(pairing.pairs.len() > 500);
    }
}

/// Moves a time of some truck below one before it; answers whether there was one to move.
fn make_fall(random: &mut Random, tips: &mut [Tip]) -> bool {
    let later: Vec<(usize, u32)> = (0..tips.len())
        .filter_map(|place| {
            let of_truck = |tip: &&Tip| tip.0 == tips[place].0;
            let highest = tips[..place].iter().filter(of_truck).map(|tip| tip.1).max();
            highest.filter(|&time| time > 0).map(|time| (place, time))
        })
        .collect();
    if later.is_empty() {
        return false;
    }
    let (place, highest) = random.pick(&later);
    tips[place].1 = match random.once_in(2) {
        true => highest - 1,
        false => random.between(0, highest - 1),
    };
    true
}

/// Times that fall on the first tape only, on the second only and on both.
#[test]
fn times_that_fall() {
    let mut random = Random::for_test();
    let mut times = [0; 4];
    for round in 0..3_000 {
        let some: [u16; 3] = trucks(&mut random);
        let some = &some[..1 + random.below(3)];
        let from = random.pick(&[1, 43_100, 65_400, 86_000]);
        let mut on_tapes = on_two(&mut random, some, &[2, 3, 6, 20], from);
        for (which, tips) in on_tapes.iter_mut().enumerate() {
            if round >> which & 1 == 1 {
                make_fall(&mut random, tips);
            }
        }
        let fell = on_tapes.each_ref().map(|tips| falls(tips));
        let [first, second] = on_tapes.map(|tips| tape(&mut random, &tips));
        match fell {
            [false, false] => drop(paired(&first, &second)),
            _ => refused(&first, &second, 12),
        }
        times[usize::from(fell[0]) + 2 * usize::from(fell[1])] += 1;
    }
    println!("on none, the first, the second, both: {times:?}");
    assert!(times.iter().all(|&some| some > 200), "{times:?}");
}

/// A fall by one second, next to one another or far apart, in either form, beside tickets of other
/// trucks; and what is no fall: other trucks, equal times, a loading that is earlier.
#[test]
fn falls_and_none() {
    let mut random = Random::for_test();
    for high in [1, 120, 121, 43_199, 43_200, 65_535, 65_536, 86_399] {
        let [truck, other] = trucks(&mut random);
        let good = tape_at(&mut random, truck, &[high]);
        for (tips, fall) in [
            (vec![(truck, high), (truck, high - 1)], true),
            (vec![(truck, high), (truck, 0)], true),
            (vec![(truck, high), (truck, high)], false),
            (vec![(truck, high - 1), (truck, high)], false),
            (vec![(truck, high), (other, high - 1)], false),
            (vec![(truck, high), (other, 0), (truck, high)], false),
            (vec![(truck, high), (other, high), (truck, high - 1)], true),
            (
                vec![(other, 0), (truck, high), (other, 1), (truck, 0)],
                true,
            ),
            (vec![(truck, 0), (truck, high), (truck, high - 1)], true),
            (vec![(truck, high), (truck, 0), (truck, high)], true),
        ] {
            assert_eq!(falls(&tips), fall);
            let tips = tape(&mut random, &tips);
            for other in [&good, &tips, &vec![]] {
                match fall {
                    true => refused(&tips, other, 12),
                    false => drop(paired(&tips, other)),
                }
            }
        }
    }
    // The first and the last of 5,000, with the others between.
    let [truck, other] = trucks(&mut random);
    let mut tips = vec![(other, 9_000); 5_000];
    (tips[0], tips[4_999]) = ((truck, 50_000), (truck, 50_000));
    let same = tape(&mut random, &tips);
    assert_eq!(paired(&same, &same).pairs.len(), 5_000);
    tips[4_999].1 -= 1;
    let fell = tape(&mut random, &tips);
    refused(&fell, &same, 12);
}

/// Outputs of every length around what is found.
#[test]
fn outputs() {
    let mut random = Random::for_test();
    let mut seen = [0; 2];
    for _ in 0..60 {
        let some: [u16; 2] = trucks(&mut random);
        let on_tapes = on_two(&mut random, &some, &[0, 1, 2, 3, 4, 5, 6], 0);
        let [first, second] = on_tapes.map(|tips| tape(&mut random, &tips));
        let Pairing {
            pairs,
            left_first,
            left_second,
        } = paired(&first, &second);
        let done = Paired {
            pairs: pairs.len(),
            left_first: left_first.len(),
            left_second: left_second.len(),
        };
        for a in 0..=2 * done.pairs + 3 {
            for b in 0..=done.left_first + 2 {
                for c in 0..=done.left_second + 2 {
                    let (answer, outputs) = both::pair_tapes(&first, &second, [a, b, c]);
                    let short = a < 2 * done.pairs || b < done.left_first || c < done.left_second;
                    seen[usize::from(short)] += 1;
                    if short {
                        assert_eq!(answer, Err(6), "rooms {a}, {b} and {c}");
                        assert_eq!(outputs, [a, b, c].map(both::number_pattern));
                        continue;
                    }
                    assert_eq!(answer, Ok(done), "rooms {a}, {b} and {c}");
                    let lists = [&pairs.concat(), &left_first, &left_second];
                    for ((output, list), room) in outputs.iter().zip(lists).zip([a, b, c]) {
                        let behind = &both::number_pattern(room)[list.len()..];
                        assert_eq!(output, &[list, behind].concat());
                    }
                }
            }
        }
    }
    println!("done {}, refused {}", seen[0], seen[1]);
    assert!(seen.iter().all(|&some| some > 500), "{seen:?}");
}

/// Changes a ticket's bytes, so that they do not unpack.
fn damage(random: &mut Random, packed: &mut [u8]) {
    match random.below(6) {
        0 => packed[0] &= 0x0F,
        1 => packed[0] = packed[0] & 0x0F | random.pick(&[0x30, 0x40, 0x80, 0xF0]),
        2 => (packed[0], packed[1]) = (packed[0] & 0xF0, packed[1] & 0x03),
        3 => packed[3] |= 0x3C,
        4 => packed.fill(0),
        _ => {
            let ticket = tare_above_gross(random.ticket());
            let broken = pack_anyway(ticket).expect("the ticket fits its widths");
            packed.copy_from_slice(&broken);
        }
    }
}

/// What is wrong with a tape, in the order in which it is looked for.
#[derive(Clone, Copy, PartialEq, Eq, PartialOrd, Ord, Debug)]
enum Wrong {
    Length,
    Ticket,
    Fall,
    Nothing,
}

/// A tape that has this wrong, and may have what is looked for later.
fn tape_with(random: &mut Random, wrong: Wrong, some: &[u16]) -> Vec<u8> {
    let number = random.pick(&[2, 3, 6, 20]);
    let mut tips = tips(random, &[some[0]], number, 100);
    // Other trucks between, whose own times do not fall.
    for _ in 0..random.below(3) {
        let place = random.below(tips.len() + 1);
        tips.insert(place, (some[1], 5_000));
    }
    let falls_too = random.once_in(2);
    if wrong == Wrong::Fall || wrong < Wrong::Fall && falls_too {
        assert!(make_fall(random, &mut tips));
    }
    let mut plain = tape(random, &tips);
    let bad_too = random.once_in(2);
    if wrong == Wrong::Ticket || wrong < Wrong::Ticket && bad_too {
        let any = random.below(tips.len());
        let place = random.pick(&[0, any, tips.len() - 1]);
        damage(random, &mut plain[13 * place..][..13]);
    }
    if wrong == Wrong::Length {
        match random.below(3) {
            0 => plain.truncate(plain.len() - 1 - random.below(12)),
            1 => plain.extend(random.bytes(1).repeat(1 + random.below(12))),
            _ => plain = plain[..13].repeat(5_001),
        }
    }
    plain
}

/// Every kind of wrong tape on either side, or on both, with outputs that are long enough or too
/// short: 2, then 8, then 12, each on both tapes, then 6. Nothing is written.
#[test]
fn the_order_of_the_numbers() {
    let mut random = Random::for_test();
    let kinds = [Wrong::Length, Wrong::Ticket, Wrong::Fall, Wrong::Nothing];
    for _ in 0..60 {
        let some: [u16; 2] = trucks(&mut random);
        for one in kinds {
            for other in kinds {
                let first = tape_with(&mut random, one, &some);
                let second = tape_with(&mut random, other, &some);
                let number = match one.min(other) {
                    Wrong::Length => 2,
                    Wrong::Ticket => 8,
                    Wrong::Fall => 12,
                    Wrong::Nothing => 6,
                };
                let (answer, outputs) = both::pair_tapes(&first, &second, [0, 0, 0]);
                assert_eq!((answer, outputs), (Err(number), [(); 3].map(|()| vec![])));
                if number == 6 {
                    paired(&first, &second);
                    continue;
                }
                for rooms in [[50, 30, 30], [51, 30, 0], [1, 30, 30], [0, 1, 2]] {
                    let (answer, outputs) = both::pair_tapes(&first, &second, rooms);
                    assert_eq!(answer, Err(number), "{one:?} and {other:?}");
                    assert_eq!(outputs, rooms.map(both::number_pattern));
                }
            }
        }
    }
}

#[test]
fn every_length() {
    let mut random = Random::for_test();
    let some: [u16; 60] = trucks(&mut random);
    let on_tape = tips(&mut random, &some, 5_003, 0);
    let plain = tape(&mut random, &on_tape);
    let other = tape(&mut random, &on_tape[..10]);
    let mut lengths = [0; 2];
    for length in (0..=80).chain(64_985..=65_028) {
        let wrong = length % 13 != 0 || length > 65_000;
        lengths[usize::from(wrong)] += 1;
        match wrong {
            true => refused(&plain[..length], &other, 2),
            false => drop(paired(&plain[..length], &other)),
        }
    }
    assert_eq!(lengths, [7 + 2, 81 - 7 + 44 - 2]);
}

#[test]
fn every_bit_turned() {
    let mut random = Random::for_test();
    let some: [u16; 2] = trucks(&mut random);
    let tips = [(some[0], 500), (some[1], 40), (some[0], 600)];
    let (plain, other) = (tape(&mut random, &tips), tape(&mut random, &tips));
    let mut seen = [0; 13];
    for bit in 0..8 * plain.len() {
        let plain = turned(&plain, bit);
        let number = match both::pairing(&plain, &other) {
            Ok(_) => {
                paired(&plain, &other);
                0
            }
            Err(number) => {
                refused(&plain, &other, number);
                number
            }
        };
        seen[usize::from(number)] += 1;
    }
    println!("by number: {seen:?}");
    assert!(
        [0, 8, 12].iter().all(|&number| seen[number] > 0),
        "{seen:?}"
    );
    assert_eq!(seen.iter().sum::<u32>(), seen[0] + seen[8] + seen[12]);
}

/// Parts of one buffer as the two tapes, which may overlap: there are at least as many pairs as tickets
/// that are on both.
#[test]
fn parts_of_one_buffer() {
    let mut random = Random::for_test();
    for _ in 0..400 {
        let some: [u16; 3] = trucks(&mut random);
        let tips = tips(&mut random, &some, 20, 0);
        let plain = tape(&mut random, &tips);
        let [(a, b), (c, d)] = [(); 2].map(|()| {
            let from = random.below(21);
            (from, from + random.below(21 - from))
        });
        let pairing = paired(&plain[13 * a..13 * b], &plain[13 * c..13 * d]);
        let on_both = b.min(d).saturating_sub(a.max(c));
        assert!(pairing.pairs.len() >= on_both);
    }
}

/// Tapes that were written, opened and paired; a cab's and a crusher's, with heads and keys of their
/// own.
#[test]
fn written_tapes() {
    let mut random = Random::for_test();
    for number in [0, 1, 2, 10, 40, 158, 1_000] {
        let some: [u16; 5] = trucks(&mut random);
        let on_first = tips(&mut random, &some, number, 0);
        let on_second = by_another_clock(&mut random, &on_first);
        let [first, second] = [on_first, on_second].map(|tips| {
            let tickets: Vec<Ticket> = tips
                .iter()
                .map(|&(truck, tipped)| random.ticket_tipped(truck, tipped))
                .collect();
            let (key, head) = (random.block(), random.head());
            let tape = write_tape(&key, head, &tickets);
            let opened = both::open_tape(&key, &tape, 13 * tickets.len());
            assert!(opened.answer.is_ok());
            // The tape itself is no opened tape.
            refused(&tape, &opened.out, 2);
            opened.out
        });
        paired(&first, &second);
    }
}
