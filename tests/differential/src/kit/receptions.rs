//! Two receptions of one tape: where they part, and the longer.

use super::lines::Lines;
use super::{bytes_of, hex, line, star, tapes, File, GREATEST, HEAD, TICKET};
use crate::both;
use crate::calls::write_tape;
use crate::random::turned;
use haul_tape::Head;

/// The bytes that a field stands for, as [`bytes_of`] has them; but a piece may also name a tape, by
/// the name of its file, and with `:` and a number the first so many of its bytes.
pub fn heard(field: &str, tape: &dyn Fn(&str) -> Vec<u8>) -> Vec<u8> {
    let piece = |piece: &str| match piece.split_once(".tape") {
        None => bytes_of(piece),
        Some((name, "")) => tape(name),
        Some((name, length)) => {
            let length = length.strip_prefix(':').expect("a length behind a colon");
            tape(name)[..length.parse().expect("a length")].to_vec()
        }
    };
    field.split('+').flat_map(piece).collect()
}

/// Both calls on two receptions.
fn both_calls(lines: &mut Lines, first: &str, second: &str) {
    let tape = |name: &str| tapes::key_and_tape(name, lines.tapes).1;
    let [a, b] = [first, second].map(|field| heard(field, &tape));
    let parting = match both::parting(&a, &b) {
        Ok(()) => "done".to_string(),
        Err(parted) => line(&[&"refused", &parted.number, &parted.place]),
    };
    let part = both::longer(&a, &b);
    let part = line(&[&part.mast, &part.bytes]);
    for (call, answer) in [("parting", parting), ("longer", part)] {
        let fields = line(&[&call, &first, &second, &"=", &answer]);
        lines.lines.push(fields);
    }
}

pub(super) fn receptions(tapes: &[File]) -> File {
    let titles = "# parting first second = answer\n# longer first second = mast length";
    let mut lines = Lines::new(titles, tapes, both_calls);
    let key: [u8; 16] = std::array::from_fn(|i| i as u8);
    let tape = &write_tape(&key, HEAD, &[TICKET]);
    let whole = &hex(tape);
    let cut = |length: usize| hex(&tape[..length]);
    let wrong = |place: usize, bit: usize| hex(&turned(tape, 8 * place + bit));

    lines.title("Nothing was heard, by both masts or by one.");
    lines.two("-", "-");
    lines.both_orders("-", "07");
    lines.both_orders("-", whole);
    lines.title("One byte.");
    lines.two("07", "07");
    lines.two("00", "00");
    for other in ["06", "87", "f8", "00"] {
        lines.both_orders("07", other);
    }
    lines.both_orders("07", "0700");
    lines.both_orders("07", "0007");

    lines.title("A tape with document 01's ticket and head, heard whole by both masts.");
    lines.two(whole, whole);
    lines.title("Whole by one, and cut by the other.");
    for length in [1, 8, 9, 10, 22, 25, 37] {
        lines.both_orders(whole, &cut(length));
    }
    lines.title("Cut by both: at the same place, and at two.");
    lines.two(&cut(25), &cut(25));
    lines.both_orders(&cut(25), &cut(24));
    lines.both_orders(&cut(9), &cut(30));
    lines.title("Longer by zeros.");
    lines.both_orders("5x00", "6x00");
    lines.both_orders(whole, &format!("{whole}+00"));

    lines.title("Parted in one byte, by its lowest bit and by its highest.");
    for place in [0, 1, 8, 9, 21, 22, 36, 37] {
        lines.both_orders(whole, &wrong(place, 0));
        lines.both_orders(whole, &wrong(place, 7));
    }
    lines.title("Parted, and one of the two is cut, right behind the byte or later.");
    for (place, length) in [(0, 1), (0, 20), (9, 10), (20, 30), (36, 37)] {
        let wrong = turned(tape, 8 * place + 3);
        lines.both_orders(whole, &hex(&wrong[..length]));
        lines.both_orders(&cut(length), &hex(&wrong));
    }
    lines.title("The same cut before it: they do not part.");
    for place in [1, 9, 36, 37] {
        lines.both_orders(&cut(place), &wrong(place, 3));
    }
    lines.title("Several bytes differ: the first counts.");
    let several = turned(&turned(&turned(tape, 8 * 12), 8 * 20 + 1), 8 * 37 + 7);
    lines.both_orders(whole, &hex(&several));
    lines.both_orders(&wrong(20, 0), &wrong(12, 0));
    let all: Vec<u8> = tape.iter().map(|byte| !byte).collect();
    lines.both_orders(whole, &hex(&all));
    lines.title("A byte is lost on the way, or there is one more.");
    let lost = |place: usize| hex(&[&tape[..place], &tape[place + 1..]].concat());
    lines.both_orders(whole, &lost(0));
    lines.both_orders(whole, &lost(15));
    lines.both_orders(whole, &lost(37));
    let more = hex(&[&tape[..15], &[0x5A], &tape[15..]].concat());
    lines.both_orders(whole, &more);

    lines.title("Another sheet; another ticket; a ticket more.");
    let next_sheet = Head { sheet: 2, ..HEAD };
    lines.both_orders(whole, &hex(&write_tape(&key, next_sheet, &[TICKET])));
    lines.both_orders(whole, &hex(&write_tape(&key, HEAD, &[GREATEST])));
    lines.both_orders(whole, &hex(&write_tape(&key, HEAD, &[TICKET, TICKET])));

    lines.title("Tapes of the directory, whole, cut and with other bytes behind a cut.");
    for (name, length) in [("0_tickets", 25), ("40_tickets", 545)] {
        lines.two(&format!("{name}.tape"), &format!("{name}.tape"));
        let cut = format!("{name}.tape:{}", length - 1);
        lines.both_orders(&format!("{name}.tape"), &cut);
    }
    let long = "5000_tickets.tape";
    lines.two(long, long);
    for length in [1, 9, 255, 256, 32_512, 65_009, 65_024] {
        lines.both_orders(long, &format!("{long}:{length}"));
    }
    lines.both_orders("5000_tickets.tape:40000", "5000_tickets.tape:39999");
    lines.both_orders(long, "5000_tickets.tape:30000+2x00+2x01");
    lines.both_orders(long, "5000_tickets.tape:65008+16x00");
    lines.both_orders(long, "40_tickets.tape");
    lines.title("Tapes that do not open: tags are not looked at.");
    lines.both_orders("1_ticket.tape", "refused_2_37_bytes.tape");
    lines.both_orders("1_ticket.tape", "refused_2_39_bytes.tape");
    lines.both_orders("1_ticket.tape", "refused_7_head_bit.tape");
    lines.both_orders("1_ticket.tape", "refused_7_ciphertext_bit.tape");
    lines.both_orders("1_ticket.tape", "refused_7_tag_last_bit.tape");
    let tag_bit = "refused_7_tag_first_bit.tape";
    lines.two(tag_bit, tag_bit);
    lines.both_orders(tag_bit, "1_ticket.tape:22");

    lines.title("65,025 bytes, the most of a tape, and more.");
    let most = &star(65_025);
    lines.two(most, most);
    lines.both_orders(most, &star(65_024));
    lines.both_orders(most, &star(70_000));
    lines.both_orders(most, "*65024+00");
    lines.both_orders(most, "*65024+fe");
    lines.both_orders(most, "*65024+7e+*300");
    lines.both_orders(most, "01+65024x00");
    lines.both_orders("65025x00", "65024x00+80");
    lines.both_orders("65025x00", "32768x00+01+32256x00");
    lines.two("70000x5a", "70000x5a");
    lines.both_orders("70000x5a", "69999x5a+5b");
    File::text("receptions.txt", lines.lines)
}
