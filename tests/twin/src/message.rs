//! Whole sealing and whole opening (document 01, "The one-step machine and the session").
//!
//! A sealed message is its ciphertext and then its tag, whose length is given with it (document 02,
//! P4); the calls that name no length mean 16 bytes. All answer the number of bytes written, or the
//! smallest refusal number that applies, with 9 before the others; refusing, they write nothing.

use crate::cipher;
use crate::number;

/// Seals with a tag of 16 bytes.
pub fn seal(
    key: &[u8],
    nonce: &[u8],
    data: &[u8],
    text: &[u8],
    out: &mut [u8],
) -> Result<usize, u8> {
    seal_tag(key, nonce, data, text, number::MAX_TAG_BYTES, out)
}

/// Opens with a tag of 16 bytes.
pub fn open(
    key: &[u8],
    nonce: &[u8],
    data: &[u8],
    sealed: &[u8],
    out: &mut [u8],
) -> Result<usize, u8> {
    open_tag(key, nonce, data, sealed, number::MAX_TAG_BYTES, out)
}

/// Seals `text` and writes ciphertext and tag at the start of `out`.
pub fn seal_tag(
    key: &[u8],
    nonce: &[u8],
    data: &[u8],
    text: &[u8],
    tag_bytes: usize,
    out: &mut [u8],
) -> Result<usize, u8> {
    number::allow_tag_bytes(tag_bytes)?;
    let (Ok(key), Ok(nonce)) = (key.try_into(), nonce.try_into()) else {
        return Err(number::LENGTH);
    };
    if data.len() > number::MAX_BYTES || text.len() > number::MAX_BYTES {
        return Err(number::LIMIT);
    }
    if out.len() < text.len() + tag_bytes {
        return Err(number::OUTPUT);
    }

    let (ciphertext, tag) = cipher::seal(key, nonce, data, text, tag_bytes);
    let sealed = [ciphertext, tag].concat();
    out[..sealed.len()].copy_from_slice(&sealed);
    Ok(sealed.len())
}

/// Opens `sealed` and, once the tag is known to match, writes the text at the start of `out`.
pub fn open_tag(
    key: &[u8],
    nonce: &[u8],
    data: &[u8],
    sealed: &[u8],
    tag_bytes: usize,
    out: &mut [u8],
) -> Result<usize, u8> {
    number::allow_tag_bytes(tag_bytes)?;
    let (Ok(key), Ok(nonce)) = (key.try_into(), nonce.try_into()) else {
        return Err(number::LENGTH);
    };
    let Some(text_bytes) = sealed.len().checked_sub(tag_bytes) else {
        return Err(number::LENGTH);
    };
    let (ciphertext, tag) = sealed.split_at(text_bytes);
    if data.len() > number::MAX_BYTES || ciphertext.len() > number::MAX_BYTES {
        return Err(number::LIMIT);
    }
    if out.len() < ciphertext.len() {
        return Err(number::OUTPUT);
    }
    let (text, right_tag) = cipher::open(key, nonce, data, ciphertext, tag_bytes);
    if tag != right_tag {
        return Err(number::TAG);
    }

    out[..text.len()].copy_from_slice(&text);
    Ok(text.len())
}

#[cfg(test)]
mod tests {
    use super::*;
    use crate::testing::XorShift;

    const KEY: [u8; 16] = [3; 16];
    const NONCE: [u8; 16] = [4; 16];

    #[test]
    fn there_and_back() {
        let mut random = XorShift::new(31);
        for length in 0..60 {
            // Each length of the tag in turn.
            let t = 8 + length % 9;
            let (key, nonce) = (random.block(), random.block());
            let data_bytes = random.below(60);
            let (data, text) = (random.bytes(data_bytes), random.bytes(length));
            let mut sealed = vec![0xAA; length + t + 4];
            assert_eq!(
                seal_tag(&key, &nonce, &data, &text, t, &mut sealed),
                Ok(length + t)
            );
            assert_eq!(sealed[length + t..], [0xAA; 4]);
            sealed.truncate(length + t);

            let mut opened = vec![0xAA; length + 4];
            let open = |key: &[u8], nonce: &[u8], data: &[u8], sealed: &[u8], out: &mut [u8]| {
                open_tag(key, nonce, data, sealed, t, out)
            };
            assert_eq!(open(&key, &nonce, &data, &sealed, &mut opened), Ok(length));
            assert_eq!(opened[..length], text);
            assert_eq!(opened[length..], [0xAA; 4]);

            // One bit turned anywhere in the sealed bytes, the data, the nonce or the key.
            opened.fill(0xAA);
            let turn = |bytes: &[u8], at: usize| {
                let mut bytes = bytes.to_vec();
                bytes[at / 8] ^= 1 << (at % 8);
                bytes
            };
            let other = turn(&sealed, random.below(8 * sealed.len()));
            assert_eq!(open(&key, &nonce, &data, &other, &mut opened), Err(7));
            let other = turn(&key, random.below(128));
            assert_eq!(open(&other, &nonce, &data, &sealed, &mut opened), Err(7));
            let other = turn(&nonce, random.below(128));
            assert_eq!(open(&key, &other, &data, &sealed, &mut opened), Err(7));
            if !data.is_empty() {
                let other = turn(&data, random.below(8 * data.len()));
                assert_eq!(open(&key, &nonce, &other, &sealed, &mut opened), Err(7));
            }
            assert_eq!(opened, vec![0xAA; length + 4]);
        }
    }

    #[test]
    fn the_longest_message_passes() {
        let (data, text) = (vec![5; 65_536], vec![6; 65_536]);
        let mut sealed = vec![0; 65_552];
        assert_eq!(seal(&KEY, &NONCE, &data, &text, &mut sealed), Ok(65_552));
        let mut opened = vec![0; 65_536];
        assert_eq!(open(&KEY, &NONCE, &data, &sealed, &mut opened), Ok(65_536));
        assert_eq!(opened, text);

        // With 8 bytes of tag; the sealed bytes of the other have 8 bytes too many for that.
        let mut short = vec![0; 65_544];
        let written = seal_tag(&KEY, &NONCE, &data, &text, 8, &mut short);
        assert_eq!(written, Ok(65_544));
        assert_eq!(short[..65_536], sealed[..65_536]);
        assert_eq!(short[65_536..], sealed[65_544..]);
        opened.fill(0);
        let written = open_tag(&KEY, &NONCE, &data, &short, 8, &mut opened);
        assert_eq!(written, Ok(65_536));
        assert_eq!(opened, text);
        let written = open_tag(&KEY, &NONCE, &data, &sealed, 8, &mut opened);
        assert_eq!(written, Err(5));
    }

    /// The calls without a length are those with 16.
    #[test]
    fn no_length_means_sixteen() {
        let (mut plain, mut sixteen) = ([0xAA; 30], [0xAA; 30]);
        assert_eq!(seal(&KEY, &NONCE, b"data", b"text", &mut plain), Ok(20));
        let written = seal_tag(&KEY, &NONCE, b"data", b"text", 16, &mut sixteen);
        assert_eq!(written, Ok(20));
        assert_eq!(plain, sixteen);
        for t in 8..=16 {
            let mut short = vec![0; 4 + t];
            seal_tag(&KEY, &NONCE, b"data", b"text", t, &mut short).unwrap();
            assert_eq!(short[..4], plain[..4]);
            assert_eq!(short[4..], plain[20 - t..20]);
            let answer = open(&KEY, &NONCE, b"data", &short, &mut [0; 20]);
            let number = if t < 12 { 2 } else { 7 };
            assert_eq!(answer, if t == 16 { Ok(4) } else { Err(number) });
        }
    }

    #[test]
    fn number_9_before_all_others() {
        let long = vec![0; 65_553];
        let mut out = [0xAA; 40];
        for wrong in [0, 1, 7, 17, 24, 64, 128, 264, 65_544, usize::MAX] {
            for (key, data, input, room) in [
                (&KEY[..], &b"data"[..], &[1; 20][..], 40),
                (&KEY[..1], b"data", &[1; 20], 40),
                (&KEY, b"data", &[], 0),
                (&KEY, &long, &long, 0),
            ] {
                let out = &mut out[..room];
                assert_eq!(seal_tag(key, &NONCE, data, input, wrong, out), Err(9));
                assert_eq!(open_tag(key, &NONCE, data, input, wrong, out), Err(9));
            }
        }
        assert_eq!(out, [0xAA; 40]);
    }

    #[test]
    fn refusals_at_every_length() {
        let long = vec![0; 65_537 + 16];
        let mut out = vec![0xAA; 65_553];
        for t in 8..=16 {
            assert_eq!(seal_tag(&[0; 15], &NONCE, &long, &[], t, &mut []), Err(2));
            assert_eq!(
                seal_tag(&KEY, &NONCE, &[], &long[..65_537], t, &mut []),
                Err(5)
            );
            assert_eq!(
                seal_tag(&KEY, &NONCE, &[], &[1; 4], t, &mut out[..t + 3]),
                Err(6)
            );
            assert_eq!(
                open_tag(&KEY, &NONCE, &long, &long[..t - 1], t, &mut []),
                Err(2)
            );
            assert_eq!(
                open_tag(&KEY, &NONCE, &[], &long[..65_537 + t], t, &mut []),
                Err(5)
            );
            assert_eq!(
                open_tag(&KEY, &NONCE, &[], &long[..65_536 + t], t, &mut []),
                Err(6)
            );
            assert_eq!(
                open_tag(&KEY, &NONCE, &[], &long[..4 + t], t, &mut out[..3]),
                Err(6)
            );
            assert_eq!(open_tag(&KEY, &NONCE, &[], &[0; 20], t, &mut out), Err(7));
            assert_eq!(open_tag(&KEY, &NONCE, &[], &long[..t], t, &mut []), Err(7));
        }
        assert_eq!(out, vec![0xAA; 65_553]);
    }

    /// Every bit of the tag counts, and sealed bytes open at their own length only.
    #[test]
    fn every_length_by_itself() {
        for t in 8..=16 {
            let mut sealed = vec![0; 12 + t];
            seal_tag(&KEY, &NONCE, b"data", &[7; 12], t, &mut sealed).unwrap();
            let mut out = [0xAA; 20];
            for bit in 8 * 12..8 * sealed.len() {
                let mut other = sealed.clone();
                other[bit / 8] ^= 1 << (bit % 8);
                let answer = open_tag(&KEY, &NONCE, b"data", &other, t, &mut out);
                assert_eq!(answer, Err(7));
            }
            for other in (8..=16).filter(|&other| other != t) {
                let answer = open_tag(&KEY, &NONCE, b"data", &sealed, other, &mut out);
                assert_eq!(answer, Err(7));
            }
            assert_eq!(out, [0xAA; 20]);
        }
    }

    #[test]
    fn refusals_of_sealing() {
        let long = vec![0; 65_537];
        let mut out = vec![0xAA; 65_553];
        for wrong in [&[0; 0][..], &[0; 15], &[0; 17]] {
            assert_eq!(seal(wrong, &NONCE, &long, &long, &mut []), Err(2));
            assert_eq!(seal(&KEY, wrong, &[], &[], &mut out), Err(2));
        }
        assert_eq!(seal(&KEY, &NONCE, &long, &[], &mut []), Err(5));
        assert_eq!(seal(&KEY, &NONCE, &[], &long, &mut []), Err(5));
        assert_eq!(seal(&KEY, &NONCE, &[], &long, &mut out), Err(5));
        assert_eq!(seal(&KEY, &NONCE, &[], &[], &mut out[..15]), Err(6));
        assert_eq!(seal(&KEY, &NONCE, &[], &[1; 4], &mut out[..19]), Err(6));
        assert_eq!(out, vec![0xAA; 65_553]);
    }

    #[test]
    fn refusals_of_opening() {
        let long = vec![0; 65_537];
        let mut out = vec![0xAA; 65_553];
        for wrong in [&[0; 0][..], &[0; 15], &[0; 17]] {
            assert_eq!(open(wrong, &NONCE, &long, &[0; 16], &mut out), Err(2));
            assert_eq!(open(&KEY, wrong, &[], &[0; 16], &mut out), Err(2));
        }
        for length in 0..16 {
            assert_eq!(
                open(&KEY, &NONCE, &long, &vec![0; length], &mut out),
                Err(2)
            );
        }
        assert_eq!(open(&KEY, &NONCE, &long, &[0; 16], &mut []), Err(5));
        assert_eq!(open(&KEY, &NONCE, &[], &[0; 65_553], &mut []), Err(5));
        assert_eq!(open(&KEY, &NONCE, &[], &[0; 65_552], &mut []), Err(6));
        assert_eq!(open(&KEY, &NONCE, &[], &[0; 20], &mut [0; 3]), Err(6));
        assert_eq!(open(&KEY, &NONCE, &[], &[0; 20], &mut out), Err(7));
        assert_eq!(open(&KEY, &NONCE, &[], &[0; 16], &mut []), Err(7));
        assert_eq!(out, vec![0xAA; 65_553]);
    }
}
