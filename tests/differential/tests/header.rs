//! The constants are the header's.

use haul_tape::*;

#[test]
fn constants_are_those_of_the_header() {
    let header = include_str!("../../../include/haul_tape.h");
    let defined: Vec<(&str, usize)> = header
        .lines()
        .filter_map(|line| line.strip_prefix("#define HT_"))
        .map(|rest| {
            let mut words = rest.split_whitespace();
            let name = words.next().expect("a name");
            let value = words.next().expect("a value");
            (name, value.parse().expect("a number"))
        })
        .collect();
    let here = [
        ("KEY_BYTES", KEY_BYTES),
        ("NONCE_BYTES", NONCE_BYTES),
        ("TAG_BYTES", TAG_BYTES),
        ("LEAST_TAG_BYTES", LEAST_TAG_BYTES),
        ("TICKET_BYTES", TICKET_BYTES),
        ("HEAD_BYTES", HEAD_BYTES),
        ("MOST_BYTES", MOST_BYTES),
        ("MOST_TICKETS", MOST_TICKETS),
        ("MOST_TAPE_BYTES", MOST_TAPE_BYTES),
        ("MOST_PLAIN_BYTES", MOST_PLAIN_BYTES),
        ("MOST_LISTING_BYTES", MOST_LISTING_BYTES),
    ];
    assert_eq!(defined, here);
}
