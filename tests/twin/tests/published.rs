//! Known answers of ACORN-128 version 3.

use haul_tape_twin::cipher::{open, paper_seal, seal};
use haul_tape_twin::machine::{Kind, Machine};
use haul_tape_twin::message;

/// Key, nonce, data, text, ciphertext, tag, in hexadecimal. The first two are published answers: the
/// test suite of a public implementation of version 3 carries them as answers of the designer's
/// reference code, which nobody ran here. Of the third the ciphertext is published and the tag
/// computed; the fourth is computed.
const KNOWN: [[&str; 6]; 4] = [
    [
        "00000000000000000000000000000000",
        "00000000000000000000000000000000",
        "",
        "01",
        "2b",
        "4b60640e26f0a99dd01f93bf634997cb",
    ],
    [
        "00000000000000000000000000000000",
        "00000000000000000000000000000000",
        "01",
        "",
        "",
        "982ef7d1bba7f89a1575297a095cd7f2",
    ],
    [
        "000102030405060708090a0b0c0d0e0f",
        "000306090c0f1215181b1e2124272a2d",
        "01010101010101010101010101010101",
        "01010101010101010101010101010101",
        "86801fa89e33d99235dd4d1a72ce001a",
        "d9c66b4adb3cde073e6350cc7e237e01",
    ],
    [
        "00000000000000000000000000000000",
        "00000000000000000000000000000000",
        "",
        "",
        "",
        "835e5317896e86b2447143c74f6ffc1e",
    ],
];

fn bytes(hex: &str) -> Vec<u8> {
    (0..hex.len())
        .step_by(2)
        .map(|at| u8::from_str_radix(&hex[at..at + 2], 16).unwrap())
        .collect()
}

#[test]
fn known_answers() {
    for known in KNOWN {
        let [key, nonce, data, text, ciphertext, tag] = known.map(bytes);
        let key16: [u8; 16] = key[..].try_into().unwrap();
        let nonce16: [u8; 16] = nonce[..].try_into().unwrap();
        let sealed = [&ciphertext[..], &tag].concat();
        let mut out = vec![0; sealed.len()];
        let written = message::seal(&key, &nonce, &data, &text, &mut out);
        assert_eq!((written, &out), (Ok(sealed.len()), &sealed));
        let mut out = vec![0; text.len()];
        let written = message::open(&key, &nonce, &data, &sealed, &mut out);
        assert_eq!((written, &out), (Ok(text.len()), &text));

        // At every length of the tag (document 02, P4): it is the last bytes of the sixteen.
        for t in 8..=16 {
            let tag = tag[16 - t..].to_vec();
            let answer = (ciphertext.clone(), tag.clone());
            assert_eq!(seal(&key16, &nonce16, &data, &text, t), answer);
            assert_eq!(paper_seal(&key16, &nonce16, &data, &text, t), answer);
            assert_eq!(
                open(&key16, &nonce16, &data, &ciphertext, t),
                (text.clone(), tag.clone())
            );

            let sealed = [&ciphertext[..], &tag].concat();
            let mut out = vec![0; sealed.len()];
            let written = message::seal_tag(&key, &nonce, &data, &text, t, &mut out);
            assert_eq!((written, &out), (Ok(sealed.len()), &sealed));
            let mut out = vec![0; text.len()];
            let written = message::open_tag(&key, &nonce, &data, &sealed, t, &mut out);
            assert_eq!((written, &out), (Ok(text.len()), &text));

            let mut sealing = Machine::fresh(Kind::Sealing);
            sealing.begin_tag(&key, &nonce, t).unwrap();
            sealing.data(&data).unwrap();
            let mut out = vec![0; text.len()];
            sealing.seal_text(&text, &mut out).unwrap();
            assert_eq!(out, ciphertext);
            let mut out = vec![0; t];
            assert_eq!(sealing.seal_close(&mut out).unwrap().bytes, t);
            assert_eq!(out, tag);
            let mut checking = Machine::fresh(Kind::Checking);
            checking.begin_tag(&key, &nonce, t).unwrap();
            checking.data(&data).unwrap();
            checking.check_text(&ciphertext).unwrap();
            assert!(checking.check_close(&tag).is_ok());
        }

        // Lengths that no tag has.
        for wrong in [7, 17, 0, usize::MAX] {
            let mut out = vec![0; 40];
            let answer = message::seal_tag(&key, &nonce, &data, &text, wrong, &mut out);
            assert_eq!(answer, Err(9));
            let answer = message::open_tag(&key, &nonce, &data, &sealed, wrong, &mut out);
            assert_eq!(answer, Err(9));
            assert_eq!(out, vec![0; 40]);
            for kind in [Kind::Sealing, Kind::Checking] {
                let mut machine = Machine::fresh(kind);
                assert_eq!(machine.begin_tag(&key, &nonce, wrong), Err(9));
                assert_eq!(machine, Machine::fresh(kind));
            }
        }
    }
}
