//! ACORN-128 version 3 with 32 steps at once, and tapes, written from document 01.
//!
//! It is here to be timed: what a program in Rust, without proofs, would do. Tapes have their ticket
//! rule, phases and counts; a call that is sent back gives document 01's number.

/// Where each word of the state begins, and where the last one ends: the places that a step
/// changes, and S0.
const FIRST: [u32; 8] = [0, 61, 107, 154, 193, 230, 289, 293];

const ON: u32 = u32::MAX;

/// The 293 bits in seven words, each with its first bit in place 0.
#[derive(Clone, Copy)]
struct State([u64; 7]);

impl State {
    /// Up to 32 steps. `message` is handed the keystream bits, and gives the message bits; the
    /// first step's bit is in place 0.
    #[inline(always)]
    fn steps<const STEPS: u32>(&mut self, message: impl Fn(u32) -> u32, ca: u32, cb: u32) -> u32 {
        let mask = ((1_u64 << STEPS) - 1) as u32;
        let mut s = self.0;
        // The bits from a place on.
        let from = |word: usize, place: u32| (s[word] >> (place - FIRST[word])) as u32 & mask;
        let (s12, s23, s66, s111) = (from(0, 12), from(0, 23), from(1, 66), from(2, 111));
        let (s160, s196, s235, s244) = (from(3, 160), from(4, 196), from(5, 235), from(5, 244));
        let first = |word: u64| word as u32 & mask;

        s[6] ^= u64::from(s235 ^ first(s[5]));
        s[5] ^= u64::from(s196 ^ first(s[4]));
        s[4] ^= u64::from(s160 ^ first(s[3]));
        s[3] ^= u64::from(s111 ^ first(s[2]));
        s[2] ^= u64::from(s66 ^ first(s[1]));
        s[1] ^= u64::from(s23 ^ first(s[0]));

        let ks =
            s12 ^ first(s[3]) ^ maj(s235, first(s[1]), first(s[4])) ^ ch(first(s[5]), s111, s66);
        let f = first(s[0]) ^ !first(s[2]) ^ maj(s244, s23, s160) ^ (ca & s196) ^ (cb & ks);
        s[6] ^= u64::from((f ^ message(ks)) & mask) << 4;

        for word in 0..6 {
            let length = FIRST[word + 1] - FIRST[word];
            s[word] = s[word] >> STEPS | u64::from(first(s[word + 1])) << (length - STEPS);
        }
        s[6] >>= STEPS;
        self.0 = s;
        ks
    }

    /// The start.
    fn start(key: &[u8; 16], nonce: &[u8; 16]) -> State {
        let mut state = State([0; 7]);
        let key_words = words(key);
        for word in key_words.into_iter().chain(words(nonce)) {
            state.steps::<32>(|_| word, ON, ON);
        }
        for i in 0..48 {
            let word = key_words[i % 4] ^ u32::from(i == 0);
            state.steps::<32>(|_| word, ON, ON);
        }
        state
    }

    fn data(&mut self, data: &[u8]) {
        let mut state = *self;
        let mut pieces = data.chunks_exact(4);
        for piece in &mut pieces {
            let word = word(piece);
            state.steps::<32>(|_| word, ON, ON);
        }
        for &byte in pieces.remainder() {
            state.steps::<8>(|_| byte.into(), ON, ON);
        }
        *self = state;
    }

    /// The data end with `cb` on, the text end with it off.
    fn end(&mut self, cb: u32) {
        for i in 0..8 {
            let ca = if i < 4 { ON } else { 0 };
            self.steps::<32>(|_| u32::from(i == 0), ca, cb);
        }
    }

    /// Writes the ciphertext of the text.
    #[inline]
    fn seal_text(&mut self, text: &[u8], out: &mut [u8]) {
        let mut state = *self;
        let mut pieces = text.chunks_exact(4);
        let mut outs = out.chunks_exact_mut(4);
        for (piece, out) in (&mut pieces).zip(&mut outs) {
            let word = word(piece);
            let ks = state.steps::<32>(|_| word, ON, 0);
            out.copy_from_slice(&(word ^ ks).to_le_bytes());
        }
        for (&byte, out) in pieces.remainder().iter().zip(outs.into_remainder()) {
            let ks = state.steps::<8>(|_| byte.into(), ON, 0);
            *out = byte ^ ks as u8;
        }
        *self = state;
    }

    /// Writes the text of the ciphertext.
    fn open_text(&mut self, ciphertext: &[u8], out: &mut [u8]) {
        let mut state = *self;
        let mut pieces = ciphertext.chunks_exact(4);
        let mut outs = out.chunks_exact_mut(4);
        for (piece, out) in (&mut pieces).zip(&mut outs) {
            let word = word(piece);
            let ks = state.steps::<32>(|ks| word ^ ks, ON, 0);
            out.copy_from_slice(&(word ^ ks).to_le_bytes());
        }
        for (&byte, out) in pieces.remainder().iter().zip(outs.into_remainder()) {
            let ks = state.steps::<8>(|ks| u32::from(byte) ^ ks, ON, 0);
            *out = byte ^ ks as u8;
        }
        *self = state;
    }

    /// The text end and the final stretch. Answers the tag.
    fn close(mut self) -> [u8; 16] {
        self.end(0);
        for _ in 0..20 {
            self.steps::<32>(|_| 0, ON, ON);
        }
        let mut tag = [0; 16];
        for out in tag.chunks_exact_mut(4) {
            let ks = self.steps::<32>(|_| 0, ON, ON);
            out.copy_from_slice(&ks.to_le_bytes());
        }
        tag
    }
}

/// maj, in one operation fewer than document 01 has.
#[inline(always)]
fn maj(a: u32, b: u32, c: u32) -> u32 {
    ((a ^ b) & (a ^ c)) ^ a
}

/// ch, likewise in one fewer.
#[inline(always)]
fn ch(a: u32, b: u32, c: u32) -> u32 {
    ((b ^ c) & a) ^ c
}

#[inline(always)]
fn word(four: &[u8]) -> u32 {
    u32::from_le_bytes([four[0], four[1], four[2], four[3]])
}

fn words(block: &[u8; 16]) -> [u32; 4] {
    [0, 4, 8, 12].map(|at| word(&block[at..at + 4]))
}

/// The state in which the text begins.
fn after_data(key: &[u8; 16], nonce: &[u8; 16], data: &[u8]) -> State {
    let mut state = State::start(key, nonce);
    state.data(data);
    state.end(ON);
    state
}

/// Seals a message into an output of the text's length and 16 bytes.
pub fn seal(key: &[u8; 16], nonce: &[u8; 16], data: &[u8], text: &[u8], out: &mut [u8]) {
    let (ciphertext, tag) = out.split_at_mut(text.len());
    let mut state = after_data(key, nonce, data);
    state.seal_text(text, ciphertext);
    tag.copy_from_slice(&state.close());
}

/// Opens a message. Nothing is written unless the tag matches.
pub fn open(
    key: &[u8; 16],
    nonce: &[u8; 16],
    data: &[u8],
    sealed: &[u8],
    out: &mut [u8],
) -> Option<usize> {
    let text = opened(key, nonce, data, sealed)?;
    out[..text.len()].copy_from_slice(&text);
    Some(text.len())
}

/// The text of a message, if the tag matches.
fn opened(key: &[u8; 16], nonce: &[u8; 16], data: &[u8], sealed: &[u8]) -> Option<Vec<u8>> {
    let (ciphertext, tag) = sealed.split_last_chunk::<16>()?;
    let mut text = vec![0; ciphertext.len()];
    let mut state = after_data(key, nonce, data);
    state.open_text(ciphertext, &mut text);
    let difference = state.close().iter().zip(tag).fold(0, |d, (a, b)| d | a ^ b);
    (difference == 0).then_some(text)
}

/// A ticket of document 01.
#[repr(C)]
#[derive(Clone, Copy, PartialEq, Eq, Debug)]
pub struct Ticket {
    pub form: u8,
    pub truck: u16,
    pub shovel: u8,
    pub tip: u8,
    pub grade: u8,
    pub loaded: u32,
    pub tipped: u32,
    pub gross: u32,
    pub tare: u32,
}

impl Ticket {
    fn is_valid(&self) -> bool {
        self.form == 1
            && (1..=1_023).contains(&self.truck)
            && (1..=63).contains(&self.shovel)
            && (1..=63).contains(&self.tip)
            && self.grade <= 9
            && self.tipped <= 43_199
            && self.loaded <= self.tipped
            && self.gross < 1 << 20
            && self.tare <= self.gross
    }

    fn pack(&self) -> Option<[u8; 13]> {
        if !self.is_valid() {
            return None;
        }
        let bits = u128::from(self.form) << 124
            | u128::from(self.truck) << 114
            | u128::from(self.shovel) << 108
            | u128::from(self.tip) << 102
            | u128::from(self.grade) << 98
            | u128::from(self.loaded) << 82
            | u128::from(self.tipped) << 66
            | u128::from(self.gross) << 46
            | u128::from(self.tare) << 26;
        bits.to_be_bytes().first_chunk().copied()
    }

    fn unpack(packed: &[u8; 13]) -> Option<Ticket> {
        let mut bytes = [0; 16];
        bytes[..13].copy_from_slice(packed);
        let bits = u128::from_be_bytes(bytes);
        let field = |end: u32, width: u32| (bits >> end) as u32 & ((1 << width) - 1);
        let ticket = Ticket {
            form: field(124, 4) as u8,
            truck: field(114, 10) as u16,
            shovel: field(108, 6) as u8,
            tip: field(102, 6) as u8,
            grade: field(98, 4) as u8,
            loaded: field(82, 16),
            tipped: field(66, 16),
            gross: field(46, 20),
            tare: field(26, 20),
        };
        (ticket.is_valid() && field(24, 2) == 0).then_some(ticket)
    }
}

/// A tape's head.
#[repr(C)]
#[derive(Clone, Copy)]
pub struct Head {
    pub device: u32,
    pub shift: u32,
    pub sheet: u32,
}

impl Head {
    fn pack(&self) -> Option<[u8; 9]> {
        let range = 1..=1_000_000;
        if self.device == 0 || !range.contains(&self.shift) || !range.contains(&self.sheet) {
            return None;
        }
        let bits = u128::from(self.device) << 96
            | u128::from(self.shift) << 76
            | u128::from(self.sheet) << 56;
        bits.to_be_bytes().first_chunk().copied()
    }
}

fn nonce_of(head: &[u8; 9]) -> [u8; 16] {
    let mut nonce = [0; 16];
    nonce[..9].copy_from_slice(head);
    nonce
}

const MOST_TICKETS: u64 = 5_000;

#[derive(Clone, Copy, PartialEq, Eq)]
enum Phase {
    Fresh,
    Started,
    Finished,
}

/// A tape's writer.
pub struct Writer {
    state: State,
    steps: u64,
    tickets: u64,
    phase: Phase,
}

/// What a call of a writer has done: the bytes at the start of its output, and the steps run so far.
#[derive(PartialEq, Eq, Debug)]
pub struct Done {
    pub bytes: u64,
    pub steps: u64,
}

impl Writer {
    pub fn new() -> Writer {
        Writer {
            state: State([0; 7]),
            steps: 0,
            tickets: 0,
            phase: Phase::Fresh,
        }
    }

    pub fn start(&mut self, key: &[u8], head: Head, out: &mut [u8]) -> Result<Done, u32> {
        self.must_be(Phase::Fresh)?;
        let key = key.try_into().map_err(|_| 2_u32)?;
        let head = head.pack().ok_or(3_u32)?;
        *out.first_chunk_mut().ok_or(6_u32)? = head;
        self.state = State::start(key, &nonce_of(&head));
        self.state.data(&head);
        self.phase = Phase::Started;
        Ok(self.done(9, 1_792 + 72))
    }

    pub fn add(&mut self, ticket: &Ticket, out: &mut [u8]) -> Result<Done, u32> {
        self.must_be(Phase::Started)?;
        let packed = ticket.pack().ok_or(4_u32)?;
        if self.tickets >= MOST_TICKETS {
            return Err(5);
        }
        let out = out.first_chunk_mut::<13>().ok_or(6_u32)?;
        self.end_data();
        self.state.seal_text(&packed, out);
        self.tickets += 1;
        Ok(self.done(13, 104))
    }

    pub fn finish(&mut self, out: &mut [u8]) -> Result<Done, u32> {
        self.must_be(Phase::Started)?;
        let out = out.first_chunk_mut().ok_or(6_u32)?;
        self.end_data();
        *out = self.state.close();
        self.state = State([0; 7]);
        self.phase = Phase::Finished;
        Ok(self.done(16, 256 + 768))
    }

    fn must_be(&self, phase: Phase) -> Result<(), u32> {
        (self.phase == phase).then_some(()).ok_or(1)
    }

    /// The data end with the first ticket, or with the finish.
    fn end_data(&mut self) {
        if self.tickets == 0 {
            self.state.end(ON);
            self.steps += 256;
        }
    }

    fn done(&mut self, bytes: u64, steps: u64) -> Done {
        self.steps += steps;
        let steps = self.steps;
        Done { bytes, steps }
    }
}

/// Opens a tape. Answers tickets and total net; nothing is written unless the tag matches and every
/// ticket unpacks.
pub fn open_tape(key: &[u8], tape: &[u8], out: &mut [u8]) -> Result<(u64, u64), u32> {
    let key = key.try_into().map_err(|_| 2_u32)?;
    let (head, sealed) = tape.split_first_chunk::<9>().ok_or(2_u32)?;
    let bytes = sealed.len().checked_sub(16).ok_or(2_u32)?;
    let tickets = bytes as u64 / 13;
    if bytes % 13 != 0 || tickets > MOST_TICKETS {
        return Err(2);
    }
    let field = |bytes: [u8; 4], shift: u32| u32::from_be_bytes(bytes) >> shift & 0xF_FFFF;
    let fields = Head {
        device: u32::from_be_bytes([head[0], head[1], head[2], head[3]]),
        shift: field([0, head[4], head[5], head[6]], 4),
        sheet: field([0, head[6], head[7], head[8]], 0),
    };
    fields.pack().ok_or(3_u32)?;
    let out = out.get_mut(..bytes).ok_or(6_u32)?;
    let plain = opened(key, &nonce_of(head), head, sealed).ok_or(7_u32)?;
    let mut net = 0;
    for packed in plain.chunks_exact(13) {
        let packed = packed.first_chunk().ok_or(8_u32)?;
        let ticket = Ticket::unpack(packed).ok_or(8_u32)?;
        net += u64::from(ticket.gross - ticket.tare);
    }
    out.copy_from_slice(&plain);
    Ok((tickets, net))
}

#[cfg(test)]
mod tests {
    use super::*;
    use haul_tape::message;

    const KEY: [u8; 16] = [3; 16];
    const NONCE: [u8; 16] = [4; 16];

    #[test]
    fn messages_are_the_library_s() {
        let bytes: Vec<u8> = (0..=255).collect();
        for data_bytes in [0, 1, 4, 9, 34] {
            for text_bytes in 0..70 {
                let (data, text) = (&bytes[..data_bytes], &bytes[100..100 + text_bytes]);
                let right = message::seal_to_vec(&KEY, &NONCE, data, text).unwrap();
                let mut sealed = vec![0; text_bytes + 16];
                seal(&KEY, &NONCE, data, text, &mut sealed);
                assert_eq!(sealed, right);

                let mut opened = vec![0; text_bytes];
                let answer = open(&KEY, &NONCE, data, &sealed, &mut opened);
                assert_eq!((answer, &opened[..]), (Some(text_bytes), text));
                sealed[text_bytes] ^= 1;
                assert_eq!(open(&KEY, &NONCE, data, &sealed, &mut opened), None);
            }
        }
    }

    #[test]
    fn tapes_are_the_library_s() {
        let ticket = Ticket {
            form: 1,
            truck: 1_023,
            shovel: 2,
            tip: 63,
            grade: 9,
            loaded: 3_600,
            tipped: 43_199,
            gross: 1_048_575,
            tare: 110_000,
        };
        let head = Head {
            device: 7,
            shift: 2,
            sheet: 1_000_000,
        };
        let empty_trip = Ticket {
            gross: 110_000,
            ..ticket
        };
        let broken = Ticket {
            gross: 109_999,
            ..ticket
        };
        let mut tape = [0; 25 + 3 * 13];
        let mut writer = Writer::new();
        assert_eq!(writer.add(&ticket, &mut tape), Err(1));
        assert_eq!(writer.start(&KEY[1..], head, &mut tape), Err(2));
        let done = |bytes, steps| Ok(Done { bytes, steps });
        assert_eq!(writer.start(&KEY, head, &mut tape), done(9, 1_864));
        assert_eq!(writer.add(&broken, &mut tape), Err(4));
        for (i, ticket) in [ticket, empty_trip, ticket].iter().enumerate() {
            let answer = writer.add(ticket, &mut tape[9 + 13 * i..]);
            assert_eq!(answer, done(13, 1_864 + 256 + 104 * (i as u64 + 1)));
        }
        assert_eq!(writer.finish(&mut tape[49..]), Err(6));
        assert_eq!(writer.finish(&mut tape[48..]), done(16, 3_456));
        assert_eq!(writer.finish(&mut tape[48..]), Err(1));

        let mut plain = [0; 39];
        let opened = haul_tape::open_tape(&KEY, &tape, &mut plain).unwrap();
        assert_eq!((opened.tickets, opened.net), (3, 2 * 938_575));

        let mut out = [0; 39];
        assert_eq!(open_tape(&KEY, &tape, &mut out), Ok((3, opened.net)));
        assert_eq!(out, plain);
        assert_eq!(open_tape(&KEY, &tape, &mut out[1..]), Err(6));
        assert_eq!(open_tape(&KEY, &tape[1..], &mut out), Err(2));
        tape[20] ^= 1;
        assert_eq!(open_tape(&KEY, &tape, &mut out), Err(7));

        plain[25] += 1 << 2; // a kilogram more to the empty trip's tare
        let head = head.pack().unwrap();
        seal(&KEY, &nonce_of(&head), &head, &plain, &mut tape[9..]);
        assert!(haul_tape::open_tape(&KEY, &tape, &mut out).is_err_and(|e| e.number() == 8));
        assert_eq!(open_tape(&KEY, &tape, &mut out), Err(8));
    }
}
