//! Messages: sealed, long, and refused.

use super::{by_rule, bytes_of, hex, line, star, File, PUBLISHED};
use crate::both;
use crate::random::{turned, Random};

/// Lengths around the ends of words of 4, 16, 32 and 64 bytes.
const LENGTHS: [usize; 14] = [0, 1, 3, 4, 5, 15, 16, 17, 31, 32, 33, 63, 64, 65];

/// The fields of a message, sealed and opened again.
fn message(key: &[u8], nonce: &[u8], data: &[u8], text: &[u8]) -> String {
    let sealed = both::seal(key, nonce, data, text, text.len() + 16).out;
    let opened = both::open(key, nonce, data, &sealed, text.len());
    assert_eq!((opened.answer, &opened.out[..]), (Ok(text.len()), text));
    let (ciphertext, tag) = sealed.split_at(text.len());
    let fields = [key, nonce, data, text, ciphertext, tag];
    fields.map(hex).join(" ")
}

pub(super) fn messages() -> File {
    let mut lines: Vec<String> = PUBLISHED.lines().map(str::to_string).collect();

    lines.push("#".to_string());
    lines.push("# One bit set: the first or the last of a byte.".to_string());
    let one = |place: usize, byte: u8| {
        let mut bytes = [0; 16];
        bytes[place] = byte;
        bytes
    };
    for (place, byte) in [(0, 0x01), (0, 0x80), (15, 0x01), (15, 0x80)] {
        let bit = one(place, byte);
        lines.push(message(&bit, &[0; 16], &[], &[]));
        lines.push(message(&[0; 16], &bit, &[], &[]));
        lines.push(message(&[0; 16], &[0; 16], &bit, &[]));
        lines.push(message(&[0; 16], &[0; 16], &[], &bit));
    }

    lines.push("#".to_string());
    lines.push("# Lengths around the ends of words.".to_string());
    let mut random = Random::new(1);
    let pairs = LENGTHS
        .iter()
        .flat_map(|&n| [(n, 0), (0, n), (n, n), (9, n)])
        .chain([(9, 130), (9, 512), (300, 300), (0, 1_000), (1_000, 0)]);
    for (data_bytes, text_bytes) in pairs {
        let (key, nonce) = (random.block(), random.block());
        let (data, text) = (random.bytes(data_bytes), random.bytes(text_bytes));
        lines.push(message(&key, &nonce, &data, &text));
    }
    File::text("messages.txt", lines)
}

pub(super) fn long_messages() -> File {
    let mut lines = vec!["# key nonce data text tag check".to_string()];
    let mut random = Random::new(2);
    for (data_bytes, text_bytes) in [
        (0, 8_192),
        (0, 65_535),
        (0, 65_536),
        (65_535, 0),
        (65_536, 0),
        (9, 65_000),
        (65_536, 65_536),
    ] {
        let (key, nonce) = (random.block(), random.block());
        let (data, text) = (by_rule(data_bytes), by_rule(text_bytes));
        let sealed = both::seal(&key, &nonce, &data, &text, text_bytes + 16).out;
        let (ciphertext, tag) = sealed.split_at(text_bytes);
        let check = both::seal(&key, &nonce, ciphertext, &[], 16).out;
        let (data, text) = (star(data_bytes), star(text_bytes));
        lines.push(line(&[
            &hex(&key),
            &hex(&nonce),
            &data,
            &text,
            &hex(tag),
            &hex(&check),
        ]));
    }
    File::text("long_messages.txt", lines)
}

pub(super) fn refused_messages() -> File {
    let mut lines = vec!["# number call key nonce data input room".to_string()];
    // Calls with their fields as the file has them.
    let mut refused = |number: u8, call: &str, fields: [&str; 4], room: usize| {
        let [key, nonce, data, input] = fields.map(bytes_of);
        let ran = match call {
            "seal" => both::seal(&key, &nonce, &data, &input, room),
            _ => both::open(&key, &nonce, &data, &input, room),
        };
        assert_eq!(ran.answer, Err(number), "{call} {fields:?} {room}");
        let fields = fields.join(" ");
        lines.push(line(&[&number, &call, &fields, &room]));
    };

    let mut random = Random::new(3);
    let (key, nonce) = (random.block(), random.block());
    let (data, text) = (random.bytes(5), random.bytes(21));
    let sealed = both::seal(&key, &nonce, &data, &text, 37).out;
    let (k, n, d, t, s) = (
        &hex(&key),
        &hex(&nonce),
        &hex(&data),
        &hex(&text),
        &hex(&sealed),
    );

    for length in [0, 1, 15, 17, 32] {
        let wrong = &hex(&random.bytes(length));
        refused(2, "seal", [wrong, n, d, t], 37);
        refused(2, "seal", [k, wrong, d, t], 37);
        refused(2, "open", [wrong, n, d, s], 21);
        refused(2, "open", [k, wrong, d, s], 21);
    }
    for length in [0, 1, 15] {
        refused(2, "open", [k, n, d, &hex(&sealed[..length])], 21);
    }
    // 2 before 5 and 6.
    refused(2, "seal", ["-", n, "*65537", t], 0);
    refused(2, "open", [k, n, "*65537", "*15"], 0);

    refused(5, "seal", [k, n, "*65537", t], 37);
    refused(5, "seal", [k, n, d, "*65537"], 65_553);
    refused(5, "open", [k, n, "*65537", s], 21);
    refused(5, "open", [k, n, d, "*65553"], 65_537);
    // 5 before 6.
    refused(5, "seal", [k, n, d, "*65537"], 0);
    refused(5, "open", [k, n, d, "*65553"], 0);

    for room in [0, 21, 36] {
        refused(6, "seal", [k, n, d, t], room);
    }
    refused(6, "seal", [k, n, d, "-"], 15);
    refused(6, "seal", [k, n, "*65536", "*65536"], 65_551);
    for room in [0, 20] {
        refused(6, "open", [k, n, d, s], room);
        // 6 before 7.
        refused(6, "open", [n, k, d, s], room);
    }

    // One bit turned, or the last bytes missing.
    for bit in [0, 7, 64, 127] {
        refused(7, "open", [&hex(&turned(&key, bit)), n, d, s], 21);
        refused(7, "open", [k, &hex(&turned(&nonce, bit)), d, s], 21);
    }
    for bit in [0, 39] {
        refused(7, "open", [k, n, &hex(&turned(&data, bit)), s], 21);
    }
    for bit in [0, 167, 168, 295] {
        refused(7, "open", [k, n, d, &hex(&turned(&sealed, bit))], 21);
    }
    refused(7, "open", [k, n, d, &hex(&sealed[..36])], 21);
    refused(7, "open", [k, n, d, &hex(&sealed[..16])], 21);
    refused(7, "open", [k, n, "-", s], 21);
    refused(7, "open", [k, n, "*65536", "*65552"], 65_536);
    File::text("refused_messages.txt", lines)
}
