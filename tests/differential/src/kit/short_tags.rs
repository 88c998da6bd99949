//! Messages with tags of 8 to 16 bytes, whole ones and refused ones, and lists of calls with them.

use super::lists::Lines;
use super::{bytes_of, hex, line, File, PUBLISHED};
use crate::both;
use crate::calls::SessionCall;
use crate::random::{turned, Random};
use haul_tape_twin::machine::Kind;
use SessionCall::{Begin, BeginTag, CheckClose, CheckText, Data, SealClose, SealText};

/// Lengths that no tag has: around 8 to 16, 64 and 128 as if they were bits, and those that are 8 or
/// 16 if their upper bits are lost.
const WRONG_LENGTHS: [usize; 11] = [0, 1, 7, 17, 18, 32, 64, 128, 264, 272, 65_544];

/// A message's fields, sealed and opened again with a tag of this length.
fn message(key: &[u8], nonce: &[u8], data: &[u8], text: &[u8], tag_bytes: usize) -> String {
    let length = text.len() + tag_bytes;
    let sealed = both::seal_tag(key, nonce, data, text, tag_bytes, length);
    assert_eq!(sealed.answer, Ok(length));
    let opened = both::open_tag(key, nonce, data, &sealed.out, tag_bytes, text.len());
    assert_eq!((opened.answer, &opened.out[..]), (Ok(text.len()), text));
    let (ciphertext, tag) = sealed.out.split_at(text.len());
    let fields = [key, nonce, data, text, ciphertext, tag].map(hex).join(" ");
    line(&[&"message", &tag_bytes, &fields])
}

/// Lines of the file of messages.
struct Messages(Vec<String>);

impl Messages {
    fn title(&mut self, title: &str) {
        self.0.push(format!("\n# {title}"));
    }

    /// A refused call, with its byte fields as the file has them.
    fn refused(
        &mut self,
        number: u8,
        call: &str,
        tag_bytes: usize,
        fields: [&str; 4],
        room: usize,
    ) {
        let [key, nonce, data, input] = fields.map(bytes_of);
        let ran = match call {
            "seal_tag" => both::seal_tag(&key, &nonce, &data, &input, tag_bytes, room),
            _ => both::open_tag(&key, &nonce, &data, &input, tag_bytes, room),
        };
        let fields = fields.join(" ");
        let refused = line(&[&"refused", &number, &call, &tag_bytes, &fields, &room]);
        assert_eq!(ran.answer, Err(number), "{refused}");
        assert_eq!(ran.out, both::pattern(room));
        self.0.push(refused);
    }
}

pub(super) fn short_tags() -> File {
    let mut lines = Messages(vec![
        "# message length key nonce data text ciphertext tag".to_string(),
        "# refused number call length key nonce data input room".to_string(),
    ]);
    lines.title("The known answers (see messages.txt), with the last bytes of their tags.");
    for known in PUBLISHED.lines().filter(|line| !line.starts_with('#')) {
        let fields: Vec<Vec<u8>> = known.split(' ').map(bytes_of).collect();
        let [key, nonce, data, text, ciphertext, tag] = &fields[..] else {
            panic!("six fields: {known}");
        };
        for t in 8..=16 {
            let made = message(key, nonce, data, text, t);
            let [ciphertext, tag] = [ciphertext, &tag[16 - t..]].map(hex);
            assert!(made.ends_with(&format!(" {ciphertext} {tag}")), "{made}");
            lines.0.push(made);
        }
    }

    lines.title("Data and text of several lengths.");
    let mut random = Random::new(7);
    for t in 8..=16 {
        for (data_bytes, text_bytes) in [(0, 0), (0, t), (t, 0), (9, 13), (5, 16), (33, 64)] {
            let (key, nonce) = (random.block(), random.block());
            let (data, text) = (random.bytes(data_bytes), random.bytes(text_bytes));
            lines.0.push(message(&key, &nonce, &data, &text, t));
        }
    }

    refused_messages(&mut lines, &mut random);
    File::text("short_tags.txt", lines.0)
}

fn refused_messages(lines: &mut Messages, random: &mut Random) {
    let (key, nonce) = (random.block(), random.block());
    let (data, text) = (random.bytes(5), random.bytes(21));
    let sealed =
        |tag_bytes| both::seal_tag(&key, &nonce, &data, &text, tag_bytes, 21 + tag_bytes).out;
    let (k, n, d, t) = (&hex(&key), &hex(&nonce), &hex(&data), &hex(&text));
    let s = |tag_bytes| hex(&sealed(tag_bytes));

    lines.title("9: no tag has this length. Nothing else is wrong.");
    for wrong in WRONG_LENGTHS {
        lines.refused(9, "seal_tag", wrong, [k, n, d, t], 60);
        lines.refused(9, "open_tag", wrong, [k, n, d, &s(16)], 60);
    }
    lines.title("9 before 2, 5 and 6.");
    for wrong in [7, 17] {
        lines.refused(9, "seal_tag", wrong, [&hex(&key[1..]), n, d, t], 60);
        lines.refused(9, "seal_tag", wrong, [k, "17x00", d, t], 60);
        lines.refused(9, "seal_tag", wrong, [k, n, "*65537", t], 60);
        lines.refused(9, "seal_tag", wrong, [k, n, d, "*65537"], 65_554);
        lines.refused(9, "seal_tag", wrong, [k, n, d, t], 0);
        lines.refused(9, "seal_tag", wrong, ["-", "-", "*65537", "*65537"], 0);
        lines.refused(9, "open_tag", wrong, [&hex(&key[1..]), n, d, &s(16)], 60);
        lines.refused(9, "open_tag", wrong, [k, "17x00", d, &s(16)], 60);
        lines.refused(9, "open_tag", wrong, [k, n, d, &hex(&sealed(16)[..6])], 60);
        lines.refused(9, "open_tag", wrong, [k, n, "*65537", &s(16)], 60);
        lines.refused(9, "open_tag", wrong, [k, n, d, "*65554"], 65_554);
        lines.refused(9, "open_tag", wrong, [k, n, d, &s(16)], 0);
        lines.refused(9, "open_tag", wrong, ["-", "-", "*65537", "-"], 0);
    }

    lines.title("2: key and nonce; sealed bytes that are shorter than the tag.");
    for length in [15, 17] {
        let wrong = &hex(&random.bytes(length));
        lines.refused(2, "seal_tag", 8, [wrong, n, d, t], 60);
        lines.refused(2, "seal_tag", 8, [k, wrong, d, t], 60);
        lines.refused(2, "open_tag", 8, [wrong, n, d, &s(8)], 60);
        lines.refused(2, "open_tag", 8, [k, wrong, d, &s(8)], 60);
    }
    // A key as long as the tag.
    lines.refused(2, "seal_tag", 8, [&hex(&key[8..]), n, d, t], 60);
    for tag_bytes in 8..=16 {
        for length in [0, 7, tag_bytes - 1] {
            let cut = &hex(&sealed(tag_bytes)[..length]);
            lines.refused(2, "open_tag", tag_bytes, [k, n, d, cut], 60);
        }
    }
    lines.title("2 before 5 and 6.");
    lines.refused(2, "seal_tag", 8, ["-", n, "*65537", t], 0);
    lines.refused(2, "open_tag", 8, [k, n, "*65537", "*7"], 0);
    lines.refused(2, "open_tag", 12, [k, n, "*65537", "*11"], 0);

    lines.title("5, and 5 before 6: the tag is not counted.");
    for tag_bytes in [8, 12, 16] {
        let sealed = &format!("*{}", 65_537 + tag_bytes);
        for room in [65_600, 0] {
            lines.refused(5, "seal_tag", tag_bytes, [k, n, d, "*65537"], room);
            lines.refused(5, "seal_tag", tag_bytes, [k, n, "*65537", t], room);
            lines.refused(5, "open_tag", tag_bytes, [k, n, d, sealed], room);
            lines.refused(
                5,
                "open_tag",
                tag_bytes,
                [k, n, "*65537", &s(tag_bytes)],
                room,
            );
        }
    }

    lines.title("6, and 6 before 7.");
    for tag_bytes in 8..=16 {
        for room in [0, 21, 21 + tag_bytes - 1] {
            lines.refused(6, "seal_tag", tag_bytes, [k, n, d, t], room);
        }
        lines.refused(6, "seal_tag", tag_bytes, [k, n, d, "-"], tag_bytes - 1);
        for room in [0, 20] {
            lines.refused(6, "open_tag", tag_bytes, [k, n, d, &s(tag_bytes)], room);
            lines.refused(6, "open_tag", tag_bytes, [n, k, d, &s(tag_bytes)], room);
        }
    }
    lines.refused(6, "seal_tag", 8, [k, n, "*65536", "*65536"], 65_543);
    lines.refused(6, "open_tag", 8, [k, n, "*65536", "*65544"], 65_535);

    lines.title("7: one bit turned, in the ciphertext, the tag, the key, the nonce or the data.");
    for tag_bytes in 8..=16 {
        for bit in [0, 8 * 21, 8 * (21 + tag_bytes) - 1] {
            let other = &hex(&turned(&sealed(tag_bytes), bit));
            lines.refused(7, "open_tag", tag_bytes, [k, n, d, other], 21);
        }
    }
    lines.refused(
        7,
        "open_tag",
        8,
        [&hex(&turned(&key, 127)), n, d, &s(8)],
        21,
    );
    lines.refused(
        7,
        "open_tag",
        8,
        [k, &hex(&turned(&nonce, 0)), d, &s(8)],
        21,
    );
    lines.refused(
        7,
        "open_tag",
        8,
        [k, n, &hex(&turned(&data, 39)), &s(8)],
        21,
    );
    lines.title("7: the first bytes of the sixteen in place of the last.");
    for tag_bytes in 8..16 {
        let first = &hex(&sealed(16)[..21 + tag_bytes]);
        lines.refused(7, "open_tag", tag_bytes, [k, n, d, first], 21);
    }
    lines.title("7: opened with another length than sealed with.");
    for other in 9..=16 {
        lines.refused(7, "open_tag", other, [k, n, d, &s(8)], 29);
        lines.refused(7, "open_tag", 8, [k, n, d, &s(other)], 29);
    }
    lines.refused(7, "open_tag", 12, [k, n, d, &s(13)], 29);
    lines.refused(7, "open_tag", 13, [k, n, d, &s(12)], 29);
    lines.title("7: the last bytes are missing; nothing but a tag; as much as there may be.");
    for tag_bytes in [8, 12, 16] {
        let cut = &hex(&sealed(tag_bytes)[..20 + tag_bytes]);
        lines.refused(7, "open_tag", tag_bytes, [k, n, d, cut], 21);
        let tag = &hex(&sealed(tag_bytes)[21..]);
        lines.refused(7, "open_tag", tag_bytes, [k, n, d, tag], 0);
        let most = &format!("*{}", 65_536 + tag_bytes);
        lines.refused(7, "open_tag", tag_bytes, [k, n, "*65536", most], 65_536);
    }
}

pub(super) fn short_tag_calls() -> File {
    let mut lines = Lines(vec!["# call arguments = answer".to_string()]);
    let mut random = Random::new(8);
    let (key, nonce) = (random.bytes(16), random.bytes(16));
    let (data, text) = (random.bytes(22), random.bytes(90));
    let mut ciphertext = both::seal(&key, &nonce, &data, &text, 106).out;
    let sixteen = ciphertext.split_off(90);
    let tag = |length: usize| sixteen[16 - length..].to_vec();

    let begin = || Begin {
        key: key.clone(),
        nonce: nonce.clone(),
    };
    let begin_tag = |tag_bytes| BeginTag {
        key: key.clone(),
        nonce: nonce.clone(),
        tag_bytes,
    };
    // with a key that is too short
    let no_key = |tag_bytes| BeginTag {
        key: key[1..].to_vec(),
        nonce: nonce.clone(),
        tag_bytes,
    };
    let give_data = |piece: &[u8]| Data {
        piece: piece.to_vec(),
    };
    let seal = |piece: &[u8]| SealText {
        piece: piece.to_vec(),
        room: piece.len(),
    };
    let check = |piece: &[u8]| CheckText {
        piece: piece.to_vec(),
    };
    let close = |room| SealClose { room };
    let give = |tag: Vec<u8>| CheckClose { tag };

    for t in 8..=16 {
        let mut sealing = vec![begin_tag(t), give_data(&data), seal(&text)];
        sealing.extend([0, t - 1, t].map(close));
        let title = format!("A tag of {t} bytes.");
        lines.session(&title, Kind::Sealing, &sealing);
        let mut checking = vec![begin_tag(t), give_data(&data), check(&ciphertext)];
        for length in (7..=16).filter(|&length| length != t) {
            checking.push(give(tag(length)));
        }
        checking.push(give([&[0], &sixteen[..]].concat()));
        checking.push(give(tag(t)));
        lines.session(&title, Kind::Checking, &checking);
    }
    lines.session(
        "The begin without a length means 16.",
        Kind::Sealing,
        &[begin(), give_data(&data), seal(&text), close(15), close(16)],
    );
    lines.session(
        "The same, checking.",
        Kind::Checking,
        &[
            begin(),
            give_data(&data),
            check(&ciphertext),
            give(tag(8)),
            give(tag(15)),
            give(tag(16)),
        ],
    );

    lines.session("Nothing taken.", Kind::Sealing, &[begin_tag(8), close(8)]);
    for room in [9, 15, 16, 40] {
        lines.session(
            "More room than the tag takes: it stays as it was.",
            Kind::Sealing,
            &[begin_tag(8), give_data(&data), seal(&text), close(room)],
        );
    }
    lines.session(
        "The same message in pieces, with a tag of 8 bytes.",
        Kind::Sealing,
        &[
            begin_tag(8),
            give_data(&data[..1]),
            give_data(&[]),
            give_data(&data[1..]),
            seal(&[]),
            seal(&text[..33]),
            seal(&text[33..]),
            close(8),
        ],
    );
    lines.session(
        "The same, checking.",
        Kind::Checking,
        &[
            begin_tag(8),
            give_data(&data[..20]),
            give_data(&data[20..]),
            check(&ciphertext[..7]),
            check(&[]),
            check(&ciphertext[7..]),
            give(tag(8)),
        ],
    );

    // What stands behind the begins of a list, in sealing and checking.
    let rest = |kind: Kind| match kind {
        Kind::Sealing => vec![give_data(&data), seal(&text)],
        Kind::Checking => vec![give_data(&data), check(&ciphertext)],
    };
    // The close: with 8 bytes, with 15 and with all; those that do not fit are refused.
    let closes = |kind: Kind| -> Vec<SessionCall> {
        let lengths = [8, 15, 16];
        match kind {
            Kind::Sealing => lengths.map(close).to_vec(),
            Kind::Checking => lengths.map(|length| give(tag(length))).to_vec(),
        }
    };
    for kind in [Kind::Sealing, Kind::Checking] {
        let mut calls = vec![no_key(8), begin_tag(7), no_key(17), no_key(8), begin()];
        calls.extend([begin_tag(8), no_key(8), begin_tag(7), begin()]);
        calls.extend(rest(kind));
        calls.extend([begin_tag(8), begin_tag(17)]);
        calls.extend(closes(kind));
        calls.push(begin_tag(8));
        lines.session("Refused begins fix no length: 16 are meant.", kind, &calls);

        let mut calls = vec![no_key(16), begin_tag(17), no_key(15), begin_tag(8)];
        calls.extend([begin_tag(16), no_key(15), begin_tag(7), begin()]);
        calls.extend(rest(kind));
        calls.extend([begin(), begin_tag(16), begin_tag(0)]);
        calls.extend(closes(kind));
        calls.extend([begin_tag(16), begin()]);
        lines.session("Refused begins fix no length: 8 are fixed.", kind, &calls);

        let mut calls: Vec<_> = WRONG_LENGTHS.map(begin_tag).to_vec();
        calls.extend([7, 17].map(no_key));
        calls.push(BeginTag {
            key: vec![],
            nonce: vec![],
            tag_bytes: 0,
        });
        calls.extend([
            no_key(8),
            begin_tag(12),
            begin_tag(12),
            begin_tag(7),
            no_key(7),
        ]);
        calls.extend(closes(kind));
        calls.extend([begin_tag(12), begin_tag(7), no_key(7)]);
        lines.session("1, then 9, then 2.", kind, &calls);
    }

    for t in [8, 12, 15] {
        for bit in [0, 8 * t - 1] {
            lines.session(
                "A tag with one bit turned closes.",
                Kind::Checking,
                &[
                    begin_tag(t),
                    give_data(&data),
                    check(&ciphertext),
                    give(turned(&tag(t), bit)),
                    give(tag(t)),
                ],
            );
        }
        lines.session(
            "The first bytes of the sixteen are not the tag.",
            Kind::Checking,
            &[
                begin_tag(t),
                give_data(&data),
                check(&ciphertext),
                give(sixteen[..t].to_vec()),
                give(tag(t)),
            ],
        );
    }
    lines.session(
        "Calls of the other kind.",
        Kind::Sealing,
        &[begin_tag(8), check(&ciphertext), give(tag(8)), close(8)],
    );
    lines.session(
        "Calls of the other kind.",
        Kind::Checking,
        &[
            begin_tag(8),
            seal(&text),
            close(8),
            give_data(&data),
            check(&ciphertext),
            give(tag(8)),
        ],
    );
    File::text("short_tag_calls.txt", lines.0)
}
