//! ACORN-128 version 3, one bit and one step at a time.
//!
//! The step and the stretches follow document 01, "One step" and "The stretches". A second writing
//! of the cipher, by document 003's own step numbers, is in [`paper_seal`].

mod paper;

pub use paper::paper_seal;

/// Bits in the state.
pub const STATE_BITS: usize = 293;
/// Steps of the start.
pub const START_STEPS: u64 = 1_792;
/// Steps of the data end, and of the text end.
pub const END_STEPS: u64 = 256;
/// Steps of the final stretch.
pub const FINAL_STEPS: u64 = 768;

/// maj of document 01, "One step", and document 003, section 1.2.3.
fn maj(a: bool, b: bool, c: bool) -> bool {
    (a & b) ^ (a & c) ^ (b & c)
}

/// ch of document 01, "One step", and document 003, section 1.2.3.
fn ch(a: bool, b: bool, c: bool) -> bool {
    (a & b) ^ (!a & c)
}

/// The 293 bits S0 to S292, with a count of the steps run on them.
#[derive(Clone, PartialEq, Eq, Debug)]
pub struct State {
    bits: [bool; STATE_BITS],
    steps: u64,
}

impl State {
    /// All bits zero, no step run.
    pub fn zeros() -> State {
        State::from_bits([false; STATE_BITS])
    }

    /// The given bits, no step run.
    pub fn from_bits(bits: [bool; STATE_BITS]) -> State {
        State { bits, steps: 0 }
    }

    /// S0 to S292.
    pub fn bits(&self) -> [bool; STATE_BITS] {
        self.bits
    }

    /// The number of steps run so far.
    pub fn steps(&self) -> u64 {
        self.steps
    }

    /// Sets all bits to zero and keeps the count of steps.
    pub fn wipe(&mut self) {
        self.bits = [false; STATE_BITS];
    }

    /// One step (document 01, "One step"; document 003, section 1.3.2). Answers the keystream bit.
    ///
    /// `message` gives the message bit m. It is handed the keystream bit, because in opening the
    /// text bit is known only once that is: m = ciphertext bit xor ks.
    pub fn step(&mut self, message: impl FnOnce(bool) -> bool, ca: bool, cb: bool) -> bool {
        let s = &mut self.bits;

        // 1. The six linear registers, from the highest down.
        s[289] ^= s[235] ^ s[230];
        s[230] ^= s[196] ^ s[193];
        s[193] ^= s[160] ^ s[154];
        s[154] ^= s[111] ^ s[107];
        s[107] ^= s[66] ^ s[61];
        s[61] ^= s[23] ^ s[0];

        // 2. The keystream bit.
        let ks = s[12] ^ s[154] ^ maj(s[235], s[61], s[193]) ^ ch(s[230], s[111], s[66]);

        // 3. The feedback bit.
        let f = s[0] ^ !s[107] ^ maj(s[244], s[23], s[160]) ^ (ca & s[196]) ^ (cb & ks);

        // 4. Every bit moves down one place; the message bit comes in at the top.
        s.copy_within(1.., 0);
        s[292] = f ^ message(ks);

        self.steps += 1;
        ks
    }
}

/// The bits of a byte string, least significant bit of each byte first (document 01, "Bits of a
/// byte").
fn bits_of(bytes: &[u8]) -> Vec<bool> {
    let mut bits = Vec::new();
    for byte in bytes {
        for j in 0..8 {
            bits.push((byte >> j) & 1 == 1);
        }
    }
    bits
}

/// The byte string with these bits; the inverse of [`bits_of`].
fn bytes_of(bits: &[bool]) -> Vec<u8> {
    let mut bytes = vec![0; bits.len() / 8];
    for (i, &bit) in bits.iter().enumerate() {
        bytes[i / 8] |= u8::from(bit) << (i % 8);
    }
    bytes
}

// The stretches of document 01's table, in its order. ca and cb are written out in each.

/// Start: from zeros, the key, the nonce, then the key twelve times over with its very first bit
/// inverted; ca = cb = 1.
pub fn start(key: &[u8; 16], nonce: &[u8; 16]) -> State {
    let key = bits_of(key);
    let nonce = bits_of(nonce);
    let mut state = State::zeros();
    for &bit in &key {
        state.step(|_| bit, true, true);
    }
    for &bit in &nonce {
        state.step(|_| bit, true, true);
    }
    for i in 0..1_536 {
        state.step(|_| key[i % 128] ^ (i == 0), true, true);
    }
    state
}

/// Data: the bits of a piece of it; ca = cb = 1.
pub fn data(state: &mut State, piece: &[u8]) {
    for bit in bits_of(piece) {
        state.step(|_| bit, true, true);
    }
}

/// Data end: a one and 255 zeros; ca = 1 for 128 steps and then 0; cb = 1.
pub fn data_end(state: &mut State) {
    end(state, true);
}

/// Text, sealing: the bits of a piece of plain text; ca = 1, cb = 0. Answers the ciphertext.
pub fn seal_text(state: &mut State, piece: &[u8]) -> Vec<u8> {
    let ciphertext: Vec<bool> = bits_of(piece)
        .into_iter()
        .map(|p| p ^ state.step(|_| p, true, false))
        .collect();
    bytes_of(&ciphertext)
}

/// Text, opening: takes a piece of ciphertext; the plain text bit is what enters the state; ca = 1,
/// cb = 0. Answers the plain text.
pub fn open_text(state: &mut State, piece: &[u8]) -> Vec<u8> {
    let text: Vec<bool> = bits_of(piece)
        .into_iter()
        .map(|c| c ^ state.step(|ks| c ^ ks, true, false))
        .collect();
    bytes_of(&text)
}

/// Text end: a one and 255 zeros; ca = 1 for 128 steps and then 0; cb = 0.
pub fn text_end(state: &mut State) {
    end(state, false);
}

/// What the two ends share.
fn end(state: &mut State, cb: bool) {
    for i in 0..END_STEPS {
        state.step(|_| i == 0, i < 128, cb);
    }
}

/// Final: 768 zeros; ca = cb = 1. The last t keystream bits are the tag (document 003, section
/// 1.3.6); here t is given in bytes, 16 for document 01's 128 bits.
pub fn finish(state: &mut State, tag_bytes: usize) -> Vec<u8> {
    let ks: Vec<bool> = (0..FINAL_STEPS)
        .map(|_| state.step(|_| false, true, true))
        .collect();
    let t = 8 * tag_bytes;
    bytes_of(&ks[ks.len() - t..])
}

/// Seals a message: all the stretches in turn. Answers ciphertext and tag.
pub fn seal(
    key: &[u8; 16],
    nonce: &[u8; 16],
    data: &[u8],
    text: &[u8],
    tag_bytes: usize,
) -> (Vec<u8>, Vec<u8>) {
    let mut state = start(key, nonce);
    self::data(&mut state, data);
    data_end(&mut state);
    let ciphertext = seal_text(&mut state, text);
    text_end(&mut state);
    let tag = finish(&mut state, tag_bytes);
    (ciphertext, tag)
}

/// Opens a message: as [`seal`], with ciphertext in. Answers plain text and the tag that belongs to
/// it; comparing the tag is left to the caller.
pub fn open(
    key: &[u8; 16],
    nonce: &[u8; 16],
    data: &[u8],
    ciphertext: &[u8],
    tag_bytes: usize,
) -> (Vec<u8>, Vec<u8>) {
    let mut state = start(key, nonce);
    self::data(&mut state, data);
    data_end(&mut state);
    let text = open_text(&mut state, ciphertext);
    text_end(&mut state);
    let tag = finish(&mut state, tag_bytes);
    (text, tag)
}

#[cfg(test)]
mod tests {
    use super::*;
    use crate::testing::XorShift;

    #[test]
    fn bits_and_bytes_are_inverse() {
        let all: Vec<u8> = (0..=255).collect();
        let bits = bits_of(&all);
        assert_eq!(bits.len(), 2_048);
        assert_eq!(bytes_of(&bits), all);
        // Byte 1 has weight 2^0 only: its first bit.
        assert_eq!(bits_of(&[1]).iter().position(|&bit| bit), Some(0));
        assert_eq!(bits_of(&[0x80]).iter().position(|&bit| bit), Some(7));
    }

    #[test]
    fn stretches_run_the_steps_of_the_table() {
        let mut state = start(&[1; 16], &[2; 16]);
        assert_eq!(state.steps(), START_STEPS);
        data(&mut state, &[3; 5]);
        assert_eq!(state.steps(), 1_792 + 40);
        data_end(&mut state);
        assert_eq!(state.steps(), 1_792 + 40 + 256);
        seal_text(&mut state, &[4; 7]);
        assert_eq!(state.steps(), 1_792 + 40 + 256 + 56);
        text_end(&mut state);
        assert_eq!(state.steps(), 1_792 + 40 + 256 + 56 + 256);
        for tag_bytes in 8..=16 {
            let mut state = state.clone();
            assert_eq!(finish(&mut state, tag_bytes).len(), tag_bytes);
            assert_eq!(state.steps(), 3_072 + 8 * (5 + 7));
        }
    }

    #[test]
    fn opening_leaves_the_state_that_sealing_leaves() {
        let mut random = XorShift::new(11);
        for length in 0..40 {
            let text = random.bytes(length);
            let mut sealing = start(&random.block(), &random.block());
            data_end(&mut sealing);
            let mut opening = sealing.clone();
            let ciphertext = seal_text(&mut sealing, &text);
            assert_eq!(open_text(&mut opening, &ciphertext), text);
            assert_eq!(opening, sealing);
        }
    }

    #[test]
    fn both_writings_of_the_cipher_agree() {
        let mut random = XorShift::new(12);
        for data_bytes in 0..=34 {
            for text_bytes in [0, 1, 2, 3, 4, 5, 7, 8, 15, 16, 17, 31, 32, 33] {
                let (key, nonce) = (random.block(), random.block());
                let (data, text) = (random.bytes(data_bytes), random.bytes(text_bytes));
                let t = 8 + random.below(9);
                let (ciphertext, tag) = seal(&key, &nonce, &data, &text, t);
                assert_eq!(
                    (ciphertext.clone(), tag.clone()),
                    paper_seal(&key, &nonce, &data, &text, t)
                );
                assert_eq!(open(&key, &nonce, &data, &ciphertext, t), (text, tag));
            }
        }
        for _ in 0..40 {
            let (key, nonce) = (random.block(), random.block());
            let (data_bytes, text_bytes) = (random.below(400), random.below(400));
            let (data, text) = (random.bytes(data_bytes), random.bytes(text_bytes));
            assert_eq!(
                seal(&key, &nonce, &data, &text, 16),
                paper_seal(&key, &nonce, &data, &text, 16)
            );
        }
    }

    #[test]
    fn a_short_tag_is_the_last_bytes_of_the_sixteen() {
        let mut random = XorShift::new(13);
        for _ in 0..10 {
            let (key, nonce) = (random.block(), random.block());
            let (data_bytes, text_bytes) = (random.below(40), random.below(40));
            let (data, text) = (random.bytes(data_bytes), random.bytes(text_bytes));
            let (ciphertext, sixteen) = seal(&key, &nonce, &data, &text, 16);
            for tag_bytes in 8..=16 {
                let tag = sixteen[16 - tag_bytes..].to_vec();
                assert_eq!(
                    paper_seal(&key, &nonce, &data, &text, tag_bytes),
                    (ciphertext.clone(), tag.clone())
                );
                assert_eq!(
                    seal(&key, &nonce, &data, &text, tag_bytes),
                    (ciphertext.clone(), tag)
                );
            }
        }
    }

    #[test]
    fn wiping_keeps_the_count() {
        let mut state = start(&[1; 16], &[2; 16]);
        state.wipe();
        assert_eq!(state.bits(), [false; STATE_BITS]);
        assert_eq!(state.steps(), START_STEPS);
    }
}
