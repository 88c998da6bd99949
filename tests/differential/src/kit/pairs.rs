//! The tickets of two opened tapes in pairs.

use super::lines::{broken_ticket, tape_of, Lines};
use super::{hex, line, star, File};
use super::{EMPTY_TRIPS, FORM_2, TARE_ABOVE_GROSS, TICKET};
use crate::both;
use crate::random::{turned, Random};
use haul_tape::Ticket;
use std::fmt::Display;

impl Lines<'_> {
    /// The pairs of two opened tapes, into outputs with room for so many numbers.
    fn into(&mut self, first: &str, second: &str, rooms: [usize; 3]) {
        let [a, b] = [first, second].map(|field| self.plain(field));
        let answer = match both::pair_tapes(&a, &b, rooms) {
            (Ok(done), [pairs, left_first, left_second]) => {
                let (pairs, _) = pairs[..2 * done.pairs].as_chunks();
                let pairs: Vec<[u32; 2]> = pairs.to_vec();
                let left_first = left_first[..done.left_first].iter().map(|&i| [i]);
                let left_second = left_second[..done.left_second].iter().map(|&j| [j]);
                line(&[
                    &"done",
                    &list(&pairs),
                    &list(&left_first.collect::<Vec<_>>()),
                    &list(&left_second.collect::<Vec<_>>()),
                ])
            }
            (Err(number), _) => line(&[&"refused", &number]),
        };
        let [x, y, z] = rooms;
        self.lines.push(line(&[
            &"pair_tapes",
            &first,
            &second,
            &x,
            &y,
            &z,
            &"=",
            &answer,
        ]));
    }

    /// The room that two tapes need; none where they are refused.
    fn just(&self, first: &str, second: &str) -> [usize; 3] {
        let [a, b] = [first, second].map(|field| self.plain(field));
        match both::pairing(&a, &b) {
            Ok(found) => [
                2 * found.pairs.len(),
                found.left_first.len(),
                found.left_second.len(),
            ],
            Err(_) => [0; 3],
        }
    }
}

/// The pairs of two opened tapes, into outputs that are just long enough.
fn into_just_enough(lines: &mut Lines, first: &str, second: &str) {
    lines.into(first, second, lines.just(first, second));
}

/// Positions, one or two an item, as a field: `-` for none; three or more in a row, each number one
/// more than before, by the first and the last with `..` between.
fn list<const N: usize>(items: &[[u32; N]]) -> String {
    let next = |item: [u32; N]| item.map(|position| position + 1);
    let item = |item: &[u32; N]| joined(item, "-");
    let runs = items.chunk_by(|&before, &after| after == next(before));
    let runs: Vec<String> = runs
        .map(|run| match run {
            [first, _, .., last] => format!("{}..{}", item(first), item(last)),
            _ => run.iter().map(item).collect::<Vec<_>>().join(","),
        })
        .collect();
    match runs.is_empty() {
        true => "-".to_string(),
        false => runs.join(","),
    }
}

fn joined(numbers: &[impl Display], between: &str) -> String {
    let numbers: Vec<String> = numbers.iter().map(|number| number.to_string()).collect();
    numbers.join(between)
}

/// A ticket of this form and truck, tipped at this time.
fn tipped(form: u8, truck: u16, tipped: u32) -> Ticket {
    Ticket {
        form,
        truck,
        loaded: tipped.min(TICKET.loaded),
        tipped,
        ..TICKET
    }
}

/// Tickets of trucks and tipped times, of form 1 where that has the time, as a field.
fn of(tips: &[(u16, u32)]) -> String {
    let ticket = |&(truck, time): &(u16, u32)| tipped(1 + u8::from(time > 43_199), truck, time);
    tape_of(&tips.iter().map(ticket).collect::<Vec<Ticket>>())
}

/// Tickets of truck 5, tipped at these times, as a field.
fn at(times: &[u32]) -> String {
    of(&times.iter().map(|&time| (5, time)).collect::<Vec<_>>())
}

/// Tickets of a few trucks, with times that are close and do not fall for a truck, in both forms.
fn close(random: &mut Random, tickets: usize, from: u32) -> String {
    let mut clocks = [from; 3];
    let ticket = |_| {
        let which = random.below(3);
        clocks[which] += random.pick(&[0, 1, 40, 90, 119, 120, 121, 180]);
        let time = clocks[which];
        let form = if time > 43_199 {
            2
        } else {
            random.pick(&[1, 2])
        };
        tipped(form, 5 + which as u16, time)
    };
    tape_of(&(0..tickets).map(ticket).collect::<Vec<Ticket>>())
}

pub(super) fn pairs(tapes: &[File]) -> File {
    let titles = "# pair_tapes first second room room room = answer";
    let mut lines = Lines::new(titles, tapes, into_just_enough);
    done(&mut lines);
    refused(&mut lines);
    File::text("pairs.txt", lines.lines)
}

fn done(lines: &mut Lines) {
    let good = &at(&[4_200]);
    lines.title("No tickets, on both tapes or on one.");
    lines.two("-", "-");
    lines.both_orders(good, "-");
    lines.both_orders(&at(&[100, 200, 300]), "-");
    lines.title("One ticket each: document 01's, another truck, other fields, other forms.");
    lines.two(good, good);
    for truck in [4, 6, 517, 1_023] {
        lines.both_orders(good, &of(&[(truck, 4_200)]));
    }
    let other = Ticket {
        shovel: 63,
        tip: 63,
        grade: 9,
        loaded: 0,
        gross: 1,
        tare: 0,
        ..TICKET
    };
    let second_form = &tape_of(&[FORM_2]);
    lines.both_orders(good, &tape_of(&[other]));
    lines.both_orders(good, &tape_of(&[EMPTY_TRIPS[0]]));
    lines.both_orders(good, second_form);
    lines.two(second_form, second_form);
    lines.title("119, 120 and 121 seconds apart.");
    for early in [0, 4_200, 43_080, 43_199, 65_435, 86_278] {
        for apart in [119, 120, 121] {
            lines.both_orders(&at(&[early]), &at(&[early + apart]));
        }
    }
    lines.title("120 and 121 seconds apart, both in form 2.");
    let late = |time| tape_of(&[tipped(2, 5, time)]);
    for apart in [120, 121] {
        lines.both_orders(&late(4_200), &late(4_200 + apart));
    }
    lines.title("65,536 seconds apart, and as far as it goes.");
    lines.both_orders(&at(&[4_200]), &at(&[69_736]));
    lines.both_orders(&at(&[0]), &at(&[86_399]));

    lines.title("Equal times of one truck.");
    lines.two(&format!("2x{good}"), &format!("2x{good}"));
    for (a, b) in [("2x", ""), ("3x", "2x"), ("6x", "4x")] {
        lines.both_orders(&format!("{a}{good}"), &format!("{b}{good}"));
    }
    lines.both_orders(&at(&[100, 100, 220]), &at(&[220, 220]));
    lines.title("Two tickets that want the only partner.");
    lines.both_orders(&at(&[500, 510]), &at(&[510]));
    lines.both_orders(&at(&[500, 620]), &at(&[560]));
    lines.both_orders(&at(&[500, 621]), &at(&[621]));
    lines.title("The partner that comes first, and not the nearest.");
    lines.both_orders(&at(&[500]), &at(&[380, 500]));
    lines.both_orders(&at(&[500]), &at(&[379, 500]));
    lines.both_orders(&at(&[500]), &at(&[400, 500, 600]));
    lines.both_orders(&at(&[500, 500]), &at(&[400, 500, 600]));
    lines.title("Chains.");
    lines.both_orders(&at(&[0, 120, 240]), &at(&[120, 240, 360]));
    lines.both_orders(&at(&[0, 120, 240]), &at(&[121, 241, 361]));
    lines.both_orders(&at(&[0, 100, 200, 300]), &at(&[220, 220]));
    lines.both_orders(&at(&[0, 60, 500, 560, 900]), &at(&[150, 400, 440, 780]));
    lines.title("Around the last second of form 1 and the end of 16 bits, both forms on one tape.");
    lines.both_orders(
        &at(&[43_000, 43_199, 43_200]),
        &at(&[43_100, 43_319, 43_320]),
    );
    lines.both_orders(
        &at(&[65_500, 65_535, 65_536]),
        &at(&[65_600, 65_655, 65_656]),
    );
    let mixed = |forms: [u8; 3]| tape_of(&forms.map(|form| tipped(form, 5, 4_200)));
    lines.both_orders(&mixed([1, 2, 1]), &mixed([2, 2, 1]));

    lines.title("Several trucks; between trucks times may fall.");
    lines.both_orders(&of(&[(5, 900), (6, 100)]), &of(&[(6, 130), (5, 880)]));
    lines.both_orders(
        &of(&[
            (9, 5_000),
            (5, 100),
            (7, 3_000),
            (5, 150),
            (9, 5_000),
            (8, 0),
        ]),
        &of(&[
            (5, 160),
            (7, 3_121),
            (9, 5_120),
            (6, 0),
            (5, 280),
            (9, 5_121),
        ]),
    );
    lines.both_orders(
        &of(&[(1, 10), (1_023, 10), (512, 10), (1, 10)]),
        &of(&[(512, 130), (1, 130), (511, 10), (1_023, 131), (1, 131)]),
    );
    lines.title("A dozen tickets and more, of three trucks.");
    let mut random = Random::new(12);
    for (a, b, from) in [
        (12, 12, 0),
        (12, 15, 42_900),
        (20, 14, 65_300),
        (8, 30, 4_000),
    ] {
        let first = close(&mut random, a, from);
        let second = close(&mut random, b, from + 30);
        lines.both_orders(&first, &second);
    }
    lines.title("Tapes of the directory.");
    lines.two("0_tickets.txt", "0_tickets.txt");
    lines.both_orders("3_tickets.txt", "1_ticket_form_2.txt");
    lines.both_orders("3_tickets.txt", "both_forms.txt");
    lines.two("both_forms.txt", "both_forms.txt");
    lines.both_orders("both_forms.txt", "empty_trips.txt");
    lines.both_orders("empty_trips.txt", "1_ticket.txt");
    lines.title("5,000 tickets on a tape, and on both.");
    let most = &format!("5000x{good}");
    lines.two(most, most);
    lines.both_orders(most, &format!("5000x{}", at(&[4_320])));
    lines.both_orders(most, &format!("5000x{}", at(&[4_321])));
    lines.both_orders(most, &format!("5000x{}", of(&[(6, 4_200)])));
    lines.both_orders(most, good);
    lines.both_orders(most, &format!("2500x{}+2500x{good}", of(&[(6, 9_000)])));
    lines.both_orders(
        &format!("4999x{}+{good}", at(&[100])),
        &format!("{good}+4999x{}", at(&[5_000])),
    );
}

fn refused(lines: &mut Lines) {
    let ticket = both::pack_ticket(TICKET, 13).out;
    let good = &hex(&ticket);
    let most = &format!("5000x{good}");
    let two = &at(&[4_200, 4_300]);

    lines.title(
        "Times of a truck fall: by a second, by more, in either form, between other trucks.",
    );
    let falls = &at(&[4_300, 4_299]);
    let other_forms = |a: u8, b: u8| tape_of(&[tipped(a, 5, 4_300), tipped(b, 5, 4_299)]);
    for fall in [
        falls.clone(),
        at(&[1, 0]),
        at(&[43_200, 43_199]),
        at(&[65_536, 65_535]),
        at(&[86_399, 0]),
        at(&[4_200, 4_300, 4_250]),
        at(&[4_200, 4_300, 4_100, 4_400]),
        other_forms(1, 2),
        other_forms(2, 1),
        other_forms(2, 2),
        of(&[(5, 4_300), (6, 4_200), (5, 4_299)]),
        of(&[(6, 0), (5, 10), (6, 1), (5, 9), (6, 2)]),
        of(&[(1_023, 7), (1_022, 7), (1_023, 6)]),
    ] {
        lines.both_orders(&fall, two);
    }
    lines.title(
        "On both tapes; beside a tape with no ticket; the last of 5,000; tapes of the directory.",
    );
    lines.two(falls, falls);
    lines.both_orders(falls, "-");
    lines.both_orders(&format!("4999x{good}+{}", at(&[4_199])), good);
    lines.both_orders("5000_tickets.txt", "1_ticket.txt");
    lines.two("5000_tickets.txt", "5000_tickets.txt");
    lines.title("The same, where the first free partner would give one pair and there are two.");
    lines.two(&at(&[120, 0]), &at(&[0, 240]));
    lines.two(&at(&[120, 300]), &at(&[240, 0]));

    lines.title("1, 12, 14 and 25 bytes, 5,000 tickets and a byte, 5,001 tickets.");
    for wrong in [
        hex(&ticket[..1]),
        hex(&ticket[..12]),
        format!("{good}+00"),
        hex(&ticket.repeat(2)[..25]),
        star(64_999),
        format!("{most}+00"),
        format!("5001x{good}"),
    ] {
        lines.both_orders(&wrong, good);
    }
    lines
        .title("A ticket that does not unpack: a spare bit is set, zero bytes, truck 0, grade 10,");
    lines.lines.push(
        "# loaded above tipped, a tare above the gross, form 3, form 2 tipped at 86,400."
            .to_string(),
    );
    let bad = &hex(&turned(&ticket, 8 * 12));
    lines.both_orders(bad, good);
    lines.both_orders("13x00", good);
    let t = TICKET;
    for broken in [
        Ticket { truck: 0, ..t },
        Ticket { grade: 10, ..t },
        Ticket { loaded: 4_201, ..t },
        TARE_ABOVE_GROSS,
        Ticket { form: 3, ..t },
        Ticket {
            tipped: 86_400,
            ..FORM_2
        },
    ] {
        lines.both_orders(&broken_ticket(broken), good);
    }
    lines.title("8 wherever it stands.");
    lines.both_orders(&format!("{bad}+2x{good}"), good);
    lines.both_orders(&format!("{good}+{bad}+{good}"), good);
    lines.both_orders(&format!("2x{good}+{bad}"), good);
    lines.both_orders(&format!("4999x{good}+{bad}"), most);

    lines.title("Both are refused: 2, then 8, then 12.");
    let short = &hex(&ticket[..12]);
    let (falls_bad, falls_short) = (&format!("{falls}+{bad}"), &format!("{falls}+{short}"));
    let bad_short = &format!("{bad}+{short}");
    lines.two(short, short);
    lines.both_orders(short, bad);
    lines.both_orders(short, falls);
    lines.two(bad, bad);
    lines.both_orders(bad, falls);
    lines.both_orders(falls_bad, good);
    lines.both_orders(falls_bad, falls);
    lines.both_orders(falls_short, good);
    lines.both_orders(falls_short, bad);
    lines.both_orders(bad_short, falls);
    lines.both_orders(&format!("5001x{bad}"), falls_bad);

    lines.title(
        "Two pairs, three left on the first tape and one on the second: room for just these, for",
    );
    lines
        .lines
        .push("# more, and for too few in one output or in several.".to_string());
    let first = &at(&[0, 100, 1_000, 2_000, 3_000]);
    let second = &at(&[100, 110, 5_000]);
    for rooms in [
        [4, 3, 1],
        [5, 3, 1],
        [6, 3, 1],
        [4, 4, 1],
        [4, 3, 2],
        [20, 30, 40],
        [3, 3, 1],
        [2, 3, 1],
        [0, 3, 1],
        [4, 2, 1],
        [4, 0, 1],
        [4, 3, 0],
        [3, 9, 9],
        [9, 2, 9],
        [9, 9, 0],
        [3, 2, 0],
        [0, 0, 0],
    ] {
        lines.into(first, second, rooms);
    }
    lines.title("Nothing to write, into some room; 5,000 pairs, and 5,000 left over on both.");
    lines.into("-", "-", [1, 1, 1]);
    for rooms in [[10_000, 0, 0], [9_999, 0, 0], [9_998, 5_000, 5_000]] {
        lines.into(most, most, rooms);
    }
    let others = &format!("5000x{}", at(&[4_321]));
    for rooms in [[0, 5_000, 5_000], [0, 4_999, 5_000], [0, 5_000, 4_999]] {
        lines.into(most, others, rooms);
    }
    lines.title("6 after 2, 8 and 12; those whatever the room.");
    for rooms in [[0, 0, 0], [4, 3, 3], [7, 9, 8]] {
        for wrong in [short, bad, falls] {
            lines.into(wrong, two, rooms);
            lines.into(two, wrong, rooms);
        }
    }
}
