//! The published answers of ACORN-128 version 3.

use haul_tape_differential::both;
use haul_tape_differential::calls::{SessionCall, Sessions};
use haul_tape_differential::kit::{bytes_of, PUBLISHED};
use haul_tape_twin::machine::Kind;

#[test]
fn published_answers() {
    let lines: Vec<&str> = PUBLISHED
        .lines()
        .filter(|line| !line.starts_with('#'))
        .collect();
    assert_eq!(lines.len(), 4);
    for line in lines {
        let fields: Vec<Vec<u8>> = line.split(' ').map(bytes_of).collect();
        let [key, nonce, data, text, ciphertext, tag] = &fields[..] else {
            panic!("six fields: {line}");
        };
        let sealed = [&ciphertext[..], tag].concat();
        let ran = both::seal(key, nonce, data, text, sealed.len());
        assert_eq!(ran.out, sealed);
        let ran = both::open(key, nonce, data, &sealed, text.len());
        assert_eq!(ran.answer, Ok(text.len()));
        assert_eq!(&ran.out, text);

        // With a short tag: the last bytes of the sixteen.
        for tag_bytes in 8..=16 {
            let tag = &tag[16 - tag_bytes..];
            let sealed = [ciphertext, tag].concat();
            let ran = both::seal_tag(key, nonce, data, text, tag_bytes, sealed.len());
            assert_eq!((ran.answer, ran.out), (Ok(sealed.len()), sealed.clone()));
            let ran = both::open_tag(key, nonce, data, &sealed, tag_bytes, text.len());
            assert_eq!((ran.answer, &ran.out), (Ok(text.len()), text));

            let begin = SessionCall::BeginTag {
                key: key.clone(),
                nonce: nonce.clone(),
                tag_bytes,
            };
            let data = SessionCall::Data {
                piece: data.clone(),
            };
            let mut sealing = Sessions::fresh(Kind::Sealing);
            let mut written = Vec::new();
            for call in [
                begin.clone(),
                data.clone(),
                SessionCall::SealText {
                    piece: text.clone(),
                    room: text.len(),
                },
                SessionCall::SealClose { room: tag_bytes },
            ] {
                let ran = sealing.call(&call);
                assert!(ran.answer.is_ok(), "{call:?}");
                written.extend(ran.out);
            }
            assert_eq!(written, sealed);
            let mut checking = Sessions::fresh(Kind::Checking);
            for call in [
                begin,
                data,
                SessionCall::CheckText {
                    piece: ciphertext.clone(),
                },
                SessionCall::CheckClose { tag: tag.to_vec() },
            ] {
                assert!(checking.call(&call).answer.is_ok(), "{call:?}");
            }
        }
    }
}
