//! Trucks on opened tapes: on one and on two, with refused tapes at every place.

use haul_tape::{truck_set_of, Ticket};
use haul_tape_differential::both;
use haul_tape_differential::calls::write_tape;
use haul_tape_differential::kit::pack_anyway;
use haul_tape_differential::random::{tare_above_gross, turned, Random};
use haul_tape_twin::ticket;
use haul_tape_twin::trucks::TruckCounts;

/// A change to 13 packed bytes, after which they do not unpack, with its name.
type Damage = (&'static str, fn(&mut [u8]));

/// Those of a ticket of either form.
const DAMAGES: [Damage; 9] = [
    ("form 0", |p| p[0] &= 0x0F),
    ("form 3", |p| p[0] = p[0] & 0x0F | 0x30),
    ("form 15", |p| p[0] |= 0xF0),
    ("truck 0", |p| (p[0], p[1]) = (p[0] & 0xF0, p[1] & 0x03)),
    ("shovel 0", |p| (p[1], p[2]) = (p[1] & 0xFC, p[2] & 0x0F)),
    ("tip point 0", |p| (p[2], p[3]) = (p[2] & 0xF0, p[3] & 0x3F)),
    ("grade 15", |p| p[3] |= 0x3C),
    ("zeros", |p| p.fill(0)),
    ("ones", |p| p.fill(0xFF)),
];

/// Those of a ticket of form 1.
const DAMAGES_OF_FORM_1: [Damage; 6] = [
    ("loaded 1 and tipped 0", |p| {
        (p[3], p[4], p[5]) = (p[3] & 0xFC, 0, 0x04);
        (p[6], p[7]) = (0, p[7] & 0x03);
    }),
    ("tipped 65,535", |p| {
        (p[5], p[6], p[7]) = (p[5] | 0x03, 0xFF, p[7] | 0xFC);
    }),
    ("gross 0 and tare 1,048,575", |p| {
        (p[7], p[8], p[9]) = (p[7] & 0xFC, 0, 0);
        (p[10], p[11], p[12]) = (0x3F, 0xFF, 0xFC);
    }),
    ("gross 0 and tare 1", |p| {
        (p[7], p[8], p[9]) = (p[7] & 0xFC, 0, 0);
        (p[10], p[11], p[12]) = (0, 0, 0x04);
    }),
    ("the first spare bit", |p| p[12] |= 2),
    ("the last spare bit", |p| p[12] |= 1),
];

/// Those of a ticket of form 2.
const DAMAGES_OF_FORM_2: [Damage; 6] = [
    ("loaded 1 and tipped 0", |p| {
        (p[3], p[4], p[5]) = (p[3] & 0xFC, 0, 0x02);
        (p[6], p[7]) = (0, 0);
    }),
    ("loaded 65,536 and tipped 65,535", |p| {
        (p[3], p[4], p[5]) = (p[3] & 0xFC | 0x02, 0, 0);
        (p[6], p[7]) = (0xFF, 0xFF);
    }),
    ("tipped 86,400", |p| {
        (p[5], p[6], p[7]) = (p[5] | 0x01, 0x51, 0x80);
    }),
    ("tipped 131,071", |p| {
        (p[5], p[6], p[7]) = (p[5] | 0x01, 0xFF, 0xFF);
    }),
    ("gross 0 and tare 1,048,575", |p| {
        (p[8], p[9]) = (0, 0);
        (p[10], p[11], p[12]) = (0x0F, 0xFF, 0xFF);
    }),
    ("gross 0 and tare 1", |p| {
        (p[8], p[9]) = (0, 0);
        (p[10], p[11], p[12]) = (0, 0, 0x01);
    }),
];

/// All damages of a ticket of this form.
fn damages_of(form: u8) -> Vec<Damage> {
    let of_form = match form {
        1 => DAMAGES_OF_FORM_1,
        _ => DAMAGES_OF_FORM_2,
    };
    [&DAMAGES[..], &of_form].concat()
}

/// Puts one of the damages into the ticket at a place.
fn damage(random: &mut Random, plain: &mut [u8], place: usize) {
    let packed = &mut plain[13 * place..][..13];
    let (_, change) = random.pick(&damages_of(packed[0] >> 4));
    change(packed);
}

/// What an opened tape is made as.
#[derive(Clone, Copy, PartialEq, Eq, Debug)]
enum Kind {
    Empty,
    OneTicket,
    OneTruck,
    FewTrucks,
    /// Trucks at both ends of each word of a set.
    EndsOfWords,
    ManyTrucks,
    EveryTruck,
    /// 5,000 tickets.
    Most,
    /// 5,001 tickets.
    TooMany,
    /// A few bytes less than some tickets, or more.
    WrongLength,
    /// A few bytes less than 5,000 tickets.
    MostCutShort,
    /// A few bytes more than 5,000 tickets.
    MostAndBytes,
    BadFirst,
    BadMiddle,
    BadLast,
    MostAndBad,
    TooManyAndBad,
    WrongLengthAndBad,
}

use Kind::*;

const KINDS: [Kind; 18] = [
    Empty,
    OneTicket,
    OneTruck,
    FewTrucks,
    EndsOfWords,
    ManyTrucks,
    EveryTruck,
    Most,
    TooMany,
    WrongLength,
    MostCutShort,
    MostAndBytes,
    BadFirst,
    BadMiddle,
    BadLast,
    MostAndBad,
    TooManyAndBad,
    WrongLengthAndBad,
];

/// All trucks, in any order.
fn every_truck(random: &mut Random) -> Vec<u16> {
    let mut every: Vec<u16> = (1..=1_023).collect();
    random.shuffle(&mut every);
    every
}

/// So many trucks of those given.
fn drawn(random: &mut Random, number: usize, from: &[u16]) -> Vec<u16> {
    (0..number).map(|_| random.pick(from)).collect()
}

/// A ticket for each of these trucks in turn, with other fields that are random.
fn tape(random: &mut Random, trucks: &[u16]) -> Vec<u8> {
    let packed = |&truck: &u16| {
        let ticket = random.ticket();
        Ticket { truck, ..ticket }.pack().unwrap()
    };
    trucks.iter().flat_map(packed).collect()
}

/// Each of the numbers once, the smallest first.
fn once_each(mut trucks: Vec<u16>) -> Vec<u16> {
    trucks.sort();
    trucks.dedup();
    trucks
}

/// An opened tape.
struct Opened {
    plain: Vec<u8>,
    /// Its trucks, the smallest number first, or the number that it is refused with.
    expected: Result<Vec<u16>, u8>,
}

fn opened(random: &mut Random, kind: Kind) -> Opened {
    let every = every_truck(random);
    let some = 3 + random.below(60);
    let trucks = match kind {
        Empty => vec![],
        OneTicket => drawn(random, 1, &every),
        OneTruck => drawn(random, some, &every[..1]),
        FewTrucks => {
            let few = 2 + random.below(4);
            [&every[..2], &drawn(random, some, &every[..few])].concat()
        }
        EndsOfWords => {
            let ends: Vec<u16> = (0..16).flat_map(|k| [64 * k, 64 * k + 63]).collect();
            let mut trucks = [&ends[1..], &[1], &drawn(random, some, &ends[1..])].concat();
            random.shuffle(&mut trucks);
            trucks
        }
        ManyTrucks => drawn(random, 600 + some, &every),
        EveryTruck => every.clone(),
        Most | MostAndBad | MostCutShort | MostAndBytes => drawn(random, 5_000, &every),
        TooMany | TooManyAndBad => drawn(random, 5_001, &every),
        WrongLength | BadFirst | BadMiddle | BadLast | WrongLengthAndBad => {
            drawn(random, some, &every)
        }
    };
    let mut plain = tape(random, &trucks);
    let tickets = trucks.len();
    match kind {
        BadFirst => damage(random, &mut plain, 0),
        BadMiddle => {
            let place = 1 + random.below(tickets - 2);
            damage(random, &mut plain, place);
        }
        BadLast => damage(random, &mut plain, tickets - 1),
        MostAndBad | TooManyAndBad | WrongLengthAndBad => {
            let place = random.below(tickets - 1);
            damage(random, &mut plain, place);
        }
        _ => {}
    }
    let bytes = 1 + random.below(12);
    match kind {
        MostCutShort => plain.truncate(plain.len() - bytes),
        MostAndBytes => plain.extend(random.bytes(bytes)),
        WrongLength | WrongLengthAndBad if random.once_in(2) => plain.truncate(plain.len() - bytes),
        WrongLength | WrongLengthAndBad => plain.extend(random.bytes(bytes)),
        _ => {}
    }
    let expected = match kind {
        TooMany | WrongLength | MostCutShort | MostAndBytes | TooManyAndBad | WrongLengthAndBad => {
            Err(2)
        }
        BadFirst | BadMiddle | BadLast | MostAndBad => Err(8),
        _ => Ok(once_each(trucks)),
    };
    Opened { plain, expected }
}

/// What the bytes of a tape show, whatever they were made as.
struct Seen {
    bytes: usize,
    /// The whole tickets, also those that do not unpack.
    tickets: usize,
    /// Places of the tickets that do not unpack.
    bad: Vec<usize>,
    trucks: usize,
}

impl Seen {
    fn whole(&self) -> bool {
        self.bytes == 13 * self.tickets
    }

    fn good(&self) -> bool {
        self.whole() && self.tickets <= 5_000 && self.bad.is_empty()
    }
}

/// A name, and whether it fits what was seen.
type Category = (&'static str, fn(&Seen) -> bool);

const CATEGORIES: [Category; 19] = [
    ("no bytes", |s| s.bytes == 0),
    ("one ticket", |s| s.good() && s.tickets == 1),
    ("one truck, several tickets", |s| {
        s.good() && s.tickets > 1 && s.trucks == 1
    }),
    ("a few trucks, more tickets", |s| {
        s.good() && (2..=5).contains(&s.trucks) && s.tickets > s.trucks
    }),
    ("32 trucks, more tickets", |s| {
        s.good() && s.trucks == 32 && s.tickets > 32
    }),
    ("many trucks, not all", |s| {
        s.good() && (300..1_023).contains(&s.trucks)
    }),
    ("all trucks once", |s| {
        s.good() && s.trucks == 1_023 && s.tickets == 1_023
    }),
    ("5,000 tickets", |s| s.good() && s.tickets == 5_000),
    ("5,001 tickets", |s| {
        s.whole() && s.tickets == 5_001 && s.bad.is_empty()
    }),
    ("5,001 tickets, a bad one", |s| {
        s.whole() && s.tickets == 5_001 && s.bad.len() == 1
    }),
    ("5,000 tickets, a bad one", |s| {
        s.whole() && s.tickets == 5_000 && s.bad.len() == 1
    }),
    ("bytes too many or too few", |s| {
        !s.whole() && s.tickets < 100 && s.bad.is_empty()
    }),
    ("bytes too many or too few, and a bad ticket", |s| {
        !s.whole() && s.tickets < 100 && s.bad.len() == 1
    }),
    ("bytes too few for 5,000 tickets", |s| {
        !s.whole() && s.tickets == 4_999
    }),
    ("bytes too many for 5,000 tickets", |s| {
        !s.whole() && s.tickets == 5_000
    }),
    ("the first is bad", |s| {
        s.whole() && s.tickets > 2 && s.bad == [0]
    }),
    ("one between is bad", |s| {
        s.whole() && s.tickets < 100 && s.bad.len() == 1 && ![0, s.tickets - 1].contains(&s.bad[0])
    }),
    ("the last is bad", |s| {
        s.whole() && s.tickets > 2 && s.bad == [s.tickets - 1]
    }),
    ("one between is bad, of 5,000", |s| {
        s.whole() && s.tickets == 5_000 && s.bad.len() == 1 && s.bad[0] > 0
    }),
];

/// How often each of the categories came up.
struct Tally([u32; CATEGORIES.len()]);

impl Tally {
    fn new() -> Tally {
        Tally([0; CATEGORIES.len()])
    }

    fn see(&mut self, plain: &[u8]) {
        let unpacked: Vec<_> = plain.chunks_exact(13).map(ticket::unpack).collect();
        let good = unpacked.iter().flatten().map(|ticket| ticket.truck);
        let seen = Seen {
            bytes: plain.len(),
            tickets: unpacked.len(),
            bad: (0..unpacked.len())
                .filter(|&place| unpacked[place].is_err())
                .collect(),
            trucks: once_each(good.collect()).len(),
        };
        for (times, (_, holds)) in self.0.iter_mut().zip(CATEGORIES) {
            *times += u32::from(holds(&seen));
        }
    }

    /// Sees that all came up.
    fn check(&self) {
        for (times, (name, _)) in self.0.iter().zip(CATEGORIES) {
            println!("{name}: {times}");
            assert!(*times > 0, "there was none: {name}");
        }
    }
}

#[test]
fn one_tape() {
    let mut random = Random::for_test();
    let mut tally = Tally::new();
    for kind in KINDS {
        for _ in 0..30 {
            let Opened { plain, expected } = opened(&mut random, kind);
            tally.see(&plain);
            assert_eq!(both::trucks(&plain), expected, "{kind:?}");
        }
    }
    tally.check();
}

/// Every kind of tape as the first and as the second.
#[test]
fn two_tapes() {
    let mut random = Random::for_test();
    let mut tally = Tally::new();
    // How often, by the numbers of the first and the second alone; 0 for a good tape.
    let mut alone = [[0; 9]; 9];
    for _ in 0..4 {
        let [firsts, seconds] = [(); 2].map(|()| KINDS.map(|kind| opened(&mut random, kind)));
        for tape in firsts.iter().chain(&seconds) {
            tally.see(&tape.plain);
        }
        for first in &firsts {
            for second in &seconds {
                let answer = both::trucks_of_two(&first.plain, &second.plain);
                let turned_round = both::trucks_of_two(&second.plain, &first.plain);
                assert_eq!(turned_round, answer);

                let numbers =
                    [first, second].map(|tape| *tape.expected.as_ref().err().unwrap_or(&0));
                alone[usize::from(numbers[0])][usize::from(numbers[1])] += 1;
                let (Ok(a), Ok(b)) = (&first.expected, &second.expected) else {
                    let smaller = numbers.into_iter().filter(|&number| number > 0).min();
                    assert_eq!(answer.err(), smaller);
                    continue;
                };
                let counts = answer.unwrap();
                let both = a.iter().filter(|truck| b.contains(truck)).count();
                assert_eq!(counts.both, both);
                assert_eq!(counts.either + counts.both, a.len() + b.len());
                assert_eq!(counts.just_one + counts.both, counts.either);
            }
        }
    }
    tally.check();
    for first in [0, 2, 8] {
        for second in [0, 2, 8] {
            println!("alone {first} and {second}: {}", alone[first][second]);
            assert!(alone[first][second] > 0);
        }
    }
}

/// Trucks dealt out to the first tape alone, to both and to the second alone.
#[test]
fn dealt_out() {
    let mut random = Random::for_test();
    for with in 0..8 {
        for _ in 0..40 {
            let every = every_truck(&mut random);
            let [a, b, c] = [1, 2, 4].map(|share| match with & share {
                0 => 0,
                _ => 1 + random.pick(&[0, 1, 4, 63, 340]),
            });
            let (on_first, rest) = every.split_at(a);
            let (on_both, rest) = rest.split_at(b);
            let on_second = &rest[..c];
            let [first, second] = [on_first, on_second].map(|alone| {
                let mut trucks = [alone, on_both].concat();
                if !trucks.is_empty() {
                    trucks.extend(drawn(&mut random, 20, &trucks));
                }
                random.shuffle(&mut trucks);
                tape(&mut random, &trucks)
            });
            let counts = TruckCounts {
                both: b,
                either: a + b + c,
                just_one: a + c,
            };
            assert_eq!(both::trucks_of_two(&first, &second), Ok(counts));
            assert_eq!(both::trucks_of_two(&second, &first), Ok(counts));
            assert_eq!(both::trucks(&first).unwrap().len(), a + b);
            assert_eq!(both::trucks(&second).unwrap().len(), b + c);

            let sets = [first, second].map(|plain| truck_set_of(&plain).unwrap());
            let joined = |join: fn(u64, u64) -> u64| {
                let words = std::array::from_fn(|i| join(sets[0][i], sets[1][i]));
                both::trucks_in(&words).len()
            };
            assert_eq!(joined(|first, second| first & second), b);
            assert_eq!(joined(|first, second| first | second), a + b + c);
            assert_eq!(joined(|first, second| first ^ second), a + c);
        }
    }
}

/// Another order of the tickets, some of them repeated, and more tickets of the same trucks.
#[test]
fn order_and_repeats() {
    let mut random = Random::for_test();
    for _ in 0..200 {
        let every = every_truck(&mut random);
        let (trucks, tickets) = (1 + random.below(80), 2 + random.below(120));
        let trucks = drawn(&mut random, tickets, &every[..trucks]);
        let plain = tape(&mut random, &trucks);
        let list = both::trucks(&plain);
        assert_eq!(list, Ok(once_each(trucks.clone())));

        let mut packed: Vec<Vec<u8>> = plain.chunks(13).map(<[u8]>::to_vec).collect();
        random.shuffle(&mut packed);
        let shuffled = packed.concat();
        for _ in 0..random.below(30) {
            packed.push(packed[random.below(tickets)].clone());
        }
        let more = 1 + random.below(30);
        let more = drawn(&mut random, more, &trucks);
        packed.extend(tape(&mut random, &more).chunks(13).map(<[u8]>::to_vec));
        random.shuffle(&mut packed);
        let repeated = packed.concat();

        let kind = random.pick(&[Empty, FewTrucks, ManyTrucks]);
        let other = opened(&mut random, kind).plain;
        let counts = both::trucks_of_two(&plain, &other);
        for changed in [shuffled, repeated] {
            assert_eq!(both::trucks(&changed), list);
            assert_eq!(both::trucks_of_two(&changed, &other), counts);
            assert_eq!(both::trucks_of_two(&other, &changed), counts);
        }
    }
}

/// With every ticket a trip back empty the trucks are the same; with one tare above its gross the
/// tape is 8.
#[test]
fn trips_back_empty() {
    let mut random = Random::for_test();
    for _ in 0..200 {
        let every = every_truck(&mut random);
        let number = 1 + random.below(40);
        let trucks = drawn(&mut random, number, &every[..20]);
        let empty_trip = |&truck: &u16| {
            let ticket = random.empty_trip();
            Ticket { truck, ..ticket }.pack().unwrap()
        };
        let empty: Vec<u8> = trucks.iter().flat_map(empty_trip).collect();
        assert_eq!(both::trucks(&empty), Ok(once_each(trucks.clone())));
        let other = tape(&mut random, &trucks);
        let counts = both::trucks_of_two(&empty, &other).unwrap();
        assert_eq!((counts.both, counts.just_one), (counts.either, 0));

        let mut above = empty;
        let packed = pack_anyway(tare_above_gross(random.ticket())).unwrap();
        above[13 * random.below(number)..][..13].copy_from_slice(&packed);
        assert_eq!(both::trucks(&above), Err(8));
        assert_eq!(both::trucks_of_two(&above, &other), Err(8));
        assert_eq!(both::trucks_of_two(&other, &above), Err(8));
    }
}

/// The same trucks on tickets of form 1, of form 2 and of both.
#[test]
fn both_forms() {
    let mut random = Random::for_test();
    for _ in 0..200 {
        let every = every_truck(&mut random);
        let number = 1 + random.below(40);
        let trucks = drawn(&mut random, number, &every[..20]);
        let of_form = |random: &mut Random, form: u8| -> Vec<u8> {
            let packed = |&truck: &u16| {
                let ticket = random.ticket_of_form(form);
                Ticket { truck, ..ticket }.pack().unwrap()
            };
            trucks.iter().flat_map(packed).collect()
        };
        let (one, two) = (of_form(&mut random, 1), of_form(&mut random, 2));
        let mixed = tape(&mut random, &trucks);
        for plain in [&one, &two, &mixed, &[&one[..], &two].concat()] {
            assert_eq!(both::trucks(plain), Ok(once_each(trucks.clone())));
            for other in [&one, &two] {
                let counts = both::trucks_of_two(plain, other).unwrap();
                assert_eq!((counts.both, counts.just_one), (counts.either, 0));
            }
        }
    }
}

#[test]
fn each_truck_alone() {
    let mut random = Random::for_test();
    let mut before = tape(&mut random, &[1_023]);
    for truck in 1..=1_023 {
        let plain = tape(&mut random, &[truck]);
        assert_eq!(both::trucks(&plain), Ok(vec![truck]));
        let apart = both::trucks_of_two(&before, &plain).unwrap();
        assert_eq!((apart.both, apart.either, apart.just_one), (0, 2, 2));
        let same = both::trucks_of_two(&plain, &plain).unwrap();
        assert_eq!((same.both, same.either, same.just_one), (1, 1, 0));
        before = plain;
    }
}

/// One truck on a single one of 5,000 tickets; that ticket damaged; a ticket more.
#[test]
fn the_longest_tapes() {
    let mut random = Random::for_test();
    for place in [0, 1, 2_500, 4_998, 4_999] {
        let every = every_truck(&mut random);
        let mut trucks = vec![every[0]; 5_000];
        trucks[place] = every[1];
        let mut plain = tape(&mut random, &trucks);
        assert_eq!(plain.len(), haul_tape::MOST_PLAIN_BYTES);
        let other = tape(&mut random, &every[1..2]);
        assert_eq!(both::trucks(&plain), Ok(once_each(every[..2].to_vec())));
        let counts = both::trucks_of_two(&plain, &other).unwrap();
        assert_eq!((counts.both, counts.either, counts.just_one), (1, 2, 1));
        assert_eq!(both::trucks_of_two(&other, &plain), Ok(counts));

        let longer = [&plain[..], &other].concat();
        assert_eq!(both::trucks(&longer), Err(2));
        damage(&mut random, &mut plain, place);
        assert_eq!(both::trucks(&plain), Err(8));
        for (tape, number) in [(&other, 8), (&plain, 8), (&longer, 2)] {
            assert_eq!(both::trucks_of_two(&plain, tape), Err(number));
            assert_eq!(both::trucks_of_two(tape, &plain), Err(number));
        }
    }
}

/// Every damage at every place of four tickets, and on either tape.
#[test]
fn damages() {
    let mut random = Random::for_test();
    let of_forms = [1, 2].map(|form| damages_of(form).into_iter().map(move |d| (form, d)));
    for (form, (what, change)) in of_forms.into_iter().flatten() {
        for place in 0..4 {
            let every = every_truck(&mut random);
            let mut good = tape(&mut random, &every[..4]);
            let ticket = Ticket {
                truck: every[place],
                ..random.ticket_of_form(form)
            };
            good[13 * place..][..13].copy_from_slice(&ticket.pack().unwrap());
            assert_eq!(both::trucks(&good).unwrap().len(), 4);
            let mut bad = good.clone();
            change(&mut bad[13 * place..][..13]);
            assert_eq!(both::unpack_ticket(&bad[13 * place..][..13]), Err(8));
            assert_eq!(both::trucks(&bad), Err(8), "form {form}, {what} at {place}");
            assert_eq!(both::trucks_of_two(&bad, &good), Err(8));
            assert_eq!(both::trucks_of_two(&good, &bad), Err(8));
            assert_eq!(both::trucks_of_two(&bad, &bad), Err(8));
            assert_eq!(both::trucks_of_two(&bad, &good[1..]), Err(2));
            assert_eq!(both::trucks_of_two(&good[1..], &bad), Err(2));
        }
    }
}

#[test]
fn every_bit_turned() {
    let mut random = Random::for_test();
    let every = every_truck(&mut random);
    let plain = tape(&mut random, &every[..3]);
    let other = tape(&mut random, &every[1..5]);
    let list = both::trucks(&plain);
    let (mut same, mut changed, mut refused) = (0, 0, 0);
    for bit in 0..8 * plain.len() {
        let plain = turned(&plain, bit);
        match both::trucks(&plain) {
            Ok(trucks) if list.as_ref() == Ok(&trucks) => same += 1,
            Ok(_) => changed += 1,
            Err(number) => {
                assert_eq!(number, 8);
                refused += 1;
            }
        }
        let counts = both::trucks_of_two(&plain, &other);
        assert_eq!(both::trucks_of_two(&other, &plain), counts);
    }
    println!("same {same}, changed {changed}, refused {refused}");
    assert!(same > 0 && changed > 0 && refused > 0);
}

#[test]
fn every_length() {
    let mut random = Random::for_test();
    let every = every_truck(&mut random);
    let trucks = drawn(&mut random, 5_003, &every);
    let plain = tape(&mut random, &trucks);
    let mut refused = 0;
    for length in (0..=150).chain(64_980..=65_039) {
        let expected = match length % 13 == 0 && length <= 65_000 {
            true => Ok(once_each(trucks[..length / 13].to_vec())),
            false => Err(2),
        };
        assert_eq!(both::trucks(&plain[..length]), expected, "{length} bytes");
        let counts = both::trucks_of_two(&plain[..length], &plain[..130]);
        assert_eq!(counts.err(), expected.as_ref().err().copied());
        let counts = both::trucks_of_two(&plain[..130], &plain[..length]);
        assert_eq!(counts.err(), expected.as_ref().err().copied());
        refused += u32::from(expected.is_err());
    }
    assert_eq!(refused, 151 - 12 + 60 - 2);
}

#[test]
fn random_bytes() {
    let mut random = Random::for_test();
    let mut refused = [0; 9];
    for _ in 0..5_000 {
        let [first, second] = [(); 2].map(|()| {
            let length = match random.below(3) {
                0 => random.below(60),
                _ => 13 * random.below(4),
            };
            let mut bytes = random.bytes(length);
            // Form 2, or form 1 and spare bits that are zero, so that the other rules are reached.
            for packed in bytes.chunks_exact_mut(13) {
                match random.once_in(2) {
                    true => packed[0] = packed[0] & 0x0F | 0x20,
                    false => {
                        packed[0] = packed[0] & 0x0F | 0x10;
                        packed[12] &= 0xFC;
                    }
                }
            }
            bytes
        });
        let number = both::trucks(&first).err().unwrap_or(0);
        refused[usize::from(number)] += 1;
        let _ = both::trucks_of_two(&first, &second);
    }
    println!("refused, by number: {refused:?}");
    assert!([0, 2, 8].iter().all(|&number| refused[number] > 0));
}

/// Parts of one buffer as the two tapes, which may overlap.
#[test]
fn parts_of_one_buffer() {
    let mut random = Random::for_test();
    for _ in 0..300 {
        let every = every_truck(&mut random);
        let trucks = drawn(&mut random, 20, &every[..15]);
        let plain = tape(&mut random, &trucks);
        let [(first, a), (second, b)] = [(); 2].map(|()| {
            let from = random.below(21);
            let to = from + random.below(21 - from);
            (
                &plain[13 * from..13 * to],
                once_each(trucks[from..to].to_vec()),
            )
        });
        let counts = both::trucks_of_two(first, second).unwrap();
        assert_eq!(counts.either, once_each([&a[..], &b].concat()).len());
        assert_eq!(counts.either + counts.both, a.len() + b.len());
        let same = both::trucks_of_two(first, first).unwrap();
        assert_eq!((same.both, same.just_one), (a.len(), 0));
    }
}

/// Tapes written, opened and counted.
#[test]
fn written_tapes() {
    let mut random = Random::for_test();
    let mut before = (Vec::new(), Vec::new());
    for tickets in [0, 1, 2, 3, 10, 39, 40, 158, 631, 5_000, 1, 0] {
        let (key, head) = (random.block(), random.head());
        let tickets: Vec<Ticket> = (0..tickets).map(|_| random.ticket()).collect();
        let tape = write_tape(&key, head, &tickets);
        let opened = both::open_tape(&key, &tape, 13 * tickets.len());
        assert!(opened.answer.is_ok());
        let trucks = once_each(tickets.iter().map(|ticket| ticket.truck).collect());
        assert_eq!(both::trucks(&opened.out).as_ref(), Ok(&trucks));
        // The tape itself is no opened tape: 25 is not a multiple of 13.
        assert_eq!(both::trucks(&tape), Err(2));

        let counts = both::trucks_of_two(&before.0, &opened.out).unwrap();
        let joined = once_each([&before.1[..], &trucks].concat());
        assert_eq!(counts.either, joined.len());
        assert_eq!(counts.either + counts.both, before.1.len() + trucks.len());
        before = (opened.out, trucks);
    }
}
