//! The one-step machine (document 01, "The one-step machine and the session").
//!
//! In every call the tests for a refusal stand first, in the order of their numbers (9 right after
//! 1), so that the first one that applies is answered. Only then does anything change.
//!
//! The length of the tag is fixed at begin (document 02, P4). Accepted pieces are counted in groups
//! (document 02, P9).

use crate::cipher::{self, State, STATE_BITS};
use crate::cutting;
use crate::number;

/// What a machine is made for, from the start.
#[derive(Clone, Copy, PartialEq, Eq, Debug)]
pub enum Kind {
    Sealing,
    Checking,
}

/// How far a machine has come.
#[derive(Clone, Copy, PartialEq, Eq, Debug)]
pub enum Phase {
    Fresh,
    Data,
    Text,
    Closed,
}

/// What an accepted call did: the bytes it wrote, and the steps run since the machine was fresh.
#[derive(Clone, Copy, PartialEq, Eq, Debug)]
pub struct Done {
    pub bytes: usize,
    pub steps: u64,
}

/// The 293 bits with their count of steps, the phase, the bytes taken, the groups of the pieces that
/// they came in, and the length of the tag.
#[derive(Clone, PartialEq, Eq, Debug)]
pub struct Machine {
    kind: Kind,
    phase: Phase,
    data_bytes: u64,
    text_bytes: u64,
    groups: u64,
    tag_bytes: usize,
    state: State,
}

impl Machine {
    /// A machine that has done nothing yet.
    pub fn fresh(kind: Kind) -> Machine {
        Machine {
            kind,
            phase: Phase::Fresh,
            data_bytes: 0,
            text_bytes: 0,
            groups: 0,
            tag_bytes: number::MAX_TAG_BYTES,
            state: State::zeros(),
        }
    }

    pub fn kind(&self) -> Kind {
        self.kind
    }

    pub fn phase(&self) -> Phase {
        self.phase
    }

    /// Bytes of data taken.
    pub fn data_bytes(&self) -> u64 {
        self.data_bytes
    }

    /// Bytes of text taken; of ciphertext in a checking machine.
    pub fn text_bytes(&self) -> u64 {
        self.text_bytes
    }

    /// Groups of the pieces taken, of data and of text alike.
    pub fn groups(&self) -> u64 {
        self.groups
    }

    /// The length of the tag: 16 until a begin fixes another.
    pub fn tag_bytes(&self) -> usize {
        self.tag_bytes
    }

    /// Steps run since the machine was fresh.
    pub fn steps(&self) -> u64 {
        self.state.steps()
    }

    /// S0 to S292.
    pub fn bits(&self) -> [bool; STATE_BITS] {
        self.state.bits()
    }

    /// begin with a tag of 16 bytes.
    pub fn begin(&mut self, key: &[u8], nonce: &[u8]) -> Result<Done, u8> {
        self.begin_tag(key, nonce, number::MAX_TAG_BYTES)
    }

    /// begin: in fresh only; fixes the length of the tag; runs start; phase data.
    pub fn begin_tag(&mut self, key: &[u8], nonce: &[u8], tag_bytes: usize) -> Result<Done, u8> {
        if self.phase != Phase::Fresh {
            return Err(number::PHASE);
        }
        number::allow_tag_bytes(tag_bytes)?;
        let (Ok(key), Ok(nonce)) = (key.try_into(), nonce.try_into()) else {
            return Err(number::LENGTH);
        };

        self.state = cipher::start(key, nonce);
        self.tag_bytes = tag_bytes;
        self.phase = Phase::Data;
        Ok(self.done(0))
    }

    /// data: in data only; runs the bits of the piece.
    pub fn data(&mut self, piece: &[u8]) -> Result<Done, u8> {
        if self.phase != Phase::Data {
            return Err(number::PHASE);
        }
        if over_limit(self.data_bytes, piece) {
            return Err(number::LIMIT);
        }

        cipher::data(&mut self.state, piece);
        self.data_bytes += piece.len() as u64;
        self.groups += cutting::groups(piece.len() as u64);
        Ok(self.done(0))
    }

    /// text of a sealing machine: in data or text; phase text. Writes the ciphertext of the piece.
    pub fn seal_text(&mut self, piece: &[u8], out: &mut [u8]) -> Result<Done, u8> {
        self.allow_text_or_close(Kind::Sealing)?;
        if over_limit(self.text_bytes, piece) {
            return Err(number::LIMIT);
        }
        if out.len() < piece.len() {
            return Err(number::OUTPUT);
        }

        self.end_data();
        let ciphertext = cipher::seal_text(&mut self.state, piece);
        out[..ciphertext.len()].copy_from_slice(&ciphertext);
        self.text_bytes += piece.len() as u64;
        self.groups += cutting::groups(piece.len() as u64);
        Ok(self.done(ciphertext.len()))
    }

    /// text of a checking machine: in data or text; phase text. Takes ciphertext, writes nothing.
    pub fn check_text(&mut self, piece: &[u8]) -> Result<Done, u8> {
        self.allow_text_or_close(Kind::Checking)?;
        if over_limit(self.text_bytes, piece) {
            return Err(number::LIMIT);
        }

        self.end_data();
        cipher::open_text(&mut self.state, piece);
        self.text_bytes += piece.len() as u64;
        self.groups += cutting::groups(piece.len() as u64);
        Ok(self.done(0))
    }

    /// close of a sealing machine: in data or text; phase closed. Writes the tag, of the length fixed.
    pub fn seal_close(&mut self, out: &mut [u8]) -> Result<Done, u8> {
        self.allow_text_or_close(Kind::Sealing)?;
        if out.len() < self.tag_bytes {
            return Err(number::OUTPUT);
        }

        let tag = self.end_text_and_finish();
        out[..tag.len()].copy_from_slice(&tag);
        Ok(self.done(tag.len()))
    }

    /// close of a checking machine: in data or text; phase closed, whether the tag matches or not.
    pub fn check_close(&mut self, tag: &[u8]) -> Result<Done, u8> {
        self.allow_text_or_close(Kind::Checking)?;
        if tag.len() != self.tag_bytes {
            return Err(number::LENGTH);
        }

        if self.end_text_and_finish() != tag {
            return Err(number::TAG);
        }
        Ok(self.done(0))
    }

    /// Number 1 for text and close: they need the right kind, and phase data or text.
    fn allow_text_or_close(&self, kind: Kind) -> Result<(), u8> {
        let phase_allows = matches!(self.phase, Phase::Data | Phase::Text);
        if self.kind == kind && phase_allows {
            Ok(())
        } else {
            Err(number::PHASE)
        }
    }

    /// Runs data end if still in data; phase text.
    fn end_data(&mut self) {
        if self.phase == Phase::Data {
            cipher::data_end(&mut self.state);
            self.phase = Phase::Text;
        }
    }

    /// Runs all that is left; phase closed. Answers the tag and leaves zeros as the 293 bits.
    fn end_text_and_finish(&mut self) -> Vec<u8> {
        self.end_data();
        cipher::text_end(&mut self.state);
        let tag = cipher::finish(&mut self.state, self.tag_bytes);
        self.state.wipe();
        self.phase = Phase::Closed;
        tag
    }

    fn done(&self, bytes: usize) -> Done {
        Done {
            bytes,
            steps: self.steps(),
        }
    }
}

/// Number 5: the piece would bring the bytes taken over the limit.
fn over_limit(taken: u64, piece: &[u8]) -> bool {
    taken + piece.len() as u64 > number::MAX_BYTES as u64
}

#[cfg(test)]
mod tests {
    use super::*;
    use crate::message;
    use crate::testing::XorShift;

    const KEY: [u8; 16] = [1; 16];
    const NONCE: [u8; 16] = [2; 16];

    /// A machine of the given kind in the given phase.
    fn in_phase(kind: Kind, phase: Phase) -> Machine {
        let mut machine = Machine::fresh(kind);
        if phase == Phase::Fresh {
            return machine;
        }
        machine.begin(&KEY, &NONCE).unwrap();
        machine.data(b"data").unwrap();
        if phase == Phase::Data {
            return machine;
        }
        match kind {
            Kind::Sealing => machine.seal_text(b"text", &mut [0; 4]).unwrap(),
            Kind::Checking => machine.check_text(b"text").unwrap(),
        };
        if phase == Phase::Text {
            return machine;
        }
        match kind {
            Kind::Sealing => {
                machine.seal_close(&mut [0; 16]).unwrap();
            }
            Kind::Checking => assert_eq!(machine.check_close(&[0; 16]), Err(7)),
        }
        assert_eq!(machine.phase(), phase);
        machine
    }

    const KINDS: [Kind; 2] = [Kind::Sealing, Kind::Checking];
    const PHASES: [Phase; 4] = [Phase::Fresh, Phase::Data, Phase::Text, Phase::Closed];

    /// Runs a call that must be refused with the number, and sees that nothing changed.
    fn refused(machine: &Machine, number: u8, call: impl Fn(&mut Machine) -> Result<Done, u8>) {
        let mut after = machine.clone();
        assert_eq!(call(&mut after), Err(number));
        assert_eq!(&after, machine);
    }

    #[test]
    fn number_1_wins_over_all_others() {
        let long = vec![0; 65_537];
        for kind in KINDS {
            for phase in PHASES {
                let machine = in_phase(kind, phase);
                let text_phase = matches!(phase, Phase::Data | Phase::Text);
                let seals = kind == Kind::Sealing && text_phase;
                let checks = kind == Kind::Checking && text_phase;
                if phase != Phase::Fresh {
                    refused(&machine, 1, |m| m.begin(&KEY, &NONCE));
                    refused(&machine, 1, |m| m.begin(&[], &[]));
                    refused(&machine, 1, |m| m.begin_tag(&KEY, &NONCE, 8));
                    refused(&machine, 1, |m| m.begin_tag(&KEY, &NONCE, 7));
                    refused(&machine, 1, |m| m.begin_tag(&[], &[], 17));
                }
                if phase != Phase::Data {
                    refused(&machine, 1, |m| m.data(&[]));
                    refused(&machine, 1, |m| m.data(&long));
                }
                if !seals {
                    refused(&machine, 1, |m| m.seal_text(&[], &mut []));
                    refused(&machine, 1, |m| m.seal_text(&long, &mut []));
                    refused(&machine, 1, |m| m.seal_close(&mut [0; 16]));
                    refused(&machine, 1, |m| m.seal_close(&mut []));
                }
                if !checks {
                    refused(&machine, 1, |m| m.check_text(&[]));
                    refused(&machine, 1, |m| m.check_text(&long));
                    refused(&machine, 1, |m| m.check_close(&[0; 16]));
                    refused(&machine, 1, |m| m.check_close(&[]));
                }
            }
        }
    }

    #[test]
    fn number_2_for_key_nonce_and_tag() {
        for kind in KINDS {
            let machine = in_phase(kind, Phase::Fresh);
            for length in [0, 15, 17, 32] {
                let wrong = vec![0; length];
                refused(&machine, 2, |m| m.begin(&wrong, &NONCE));
                refused(&machine, 2, |m| m.begin(&KEY, &wrong));
            }
        }
        for phase in [Phase::Data, Phase::Text] {
            let machine = in_phase(Kind::Checking, phase);
            for length in [0, 15, 17, 32] {
                refused(&machine, 2, |m| m.check_close(&vec![0; length]));
            }
        }
    }

    #[test]
    fn number_9_right_after_1() {
        for kind in KINDS {
            let machine = in_phase(kind, Phase::Fresh);
            for wrong in [0, 1, 7, 17, 24, 64, 128, 264, 65_544, usize::MAX] {
                refused(&machine, 9, |m| m.begin_tag(&KEY, &NONCE, wrong));
                refused(&machine, 9, |m| m.begin_tag(&[], &NONCE, wrong));
                refused(&machine, 9, |m| m.begin_tag(&KEY, &[0; 17], wrong));
            }
            for length in 8..=16 {
                refused(&machine, 2, |m| m.begin_tag(&KEY[1..], &NONCE, length));
                refused(&machine, 2, |m| m.begin_tag(&KEY, &[0; 17], length));
            }
        }
    }

    #[test]
    fn an_accepted_begin_fixes_the_length() {
        for kind in KINDS {
            assert_eq!(Machine::fresh(kind).tag_bytes(), 16);
            for length in 8..=16 {
                let mut machine = Machine::fresh(kind);
                // Refused, and fixing nothing: `refused` compares the lengths, too.
                refused(&machine, 2, |m| m.begin_tag(&[], &NONCE, 8));
                refused(&machine, 9, |m| m.begin_tag(&KEY, &NONCE, 7));
                let done = machine.begin_tag(&KEY, &NONCE, length);
                let steps = 1_792;
                assert_eq!(done, Ok(Done { bytes: 0, steps }));
                assert_eq!(machine.tag_bytes(), length);
                refused(&machine, 1, |m| m.begin_tag(&KEY, &NONCE, 24 - length));
                refused(&machine, 1, |m| m.begin(&KEY, &NONCE));

                let answer = match kind {
                    Kind::Sealing => machine.seal_close(&mut [0; 16]).map(|done| done.bytes),
                    Kind::Checking => machine.check_close(&vec![0; length]).map(|_| 0),
                };
                let expected = match kind {
                    Kind::Sealing => Ok(length),
                    Kind::Checking => Err(7),
                };
                assert_eq!(answer, expected);
                assert_eq!(machine.tag_bytes(), length);
                refused(&machine, 1, |m| m.begin_tag(&KEY, &NONCE, 24 - length));
            }
        }
        let mut machine = Machine::fresh(Kind::Sealing);
        assert_eq!(machine.begin_tag(&[], &[], 8), Err(2));
        machine.begin(&KEY, &NONCE).unwrap();
        assert_eq!(machine.seal_close(&mut [0; 40]).unwrap().bytes, 16);
    }

    /// A close at every length: the output, the tag, and what is too short, too long or differs.
    #[test]
    fn a_close_uses_the_length_fixed() {
        let (_, sixteen) = cipher::seal(&KEY, &NONCE, b"data", b"text", 16);
        let begun = |kind, length| {
            let mut machine = Machine::fresh(kind);
            machine.begin_tag(&KEY, &NONCE, length).unwrap();
            machine.data(b"data").unwrap();
            machine
        };
        let steps = 3_072 + 8 * 8;
        for length in 8..=16 {
            let tag = &sixteen[16 - length..];
            let mut sealing = begun(Kind::Sealing, length);
            let mut ciphertext = [0; 4];
            sealing.seal_text(b"text", &mut ciphertext).unwrap();
            for room in [0, 7, length - 1] {
                refused(&sealing, 6, |m| m.seal_close(&mut vec![0; room]));
            }
            for room in [length, length + 1, 16, 40] {
                let mut out = vec![0xAA; room];
                let done = sealing.clone().seal_close(&mut out);
                let bytes = length;
                assert_eq!(done, Ok(Done { bytes, steps }));
                assert_eq!(out[..length], *tag);
                assert_eq!(out[length..], [0xAA; 40][length..room]);
            }

            let mut checking = begun(Kind::Checking, length);
            checking.check_text(&ciphertext).unwrap();
            for other in (0..=17).filter(|&other| other != length) {
                let padded = [&[0], &sixteen[..]].concat();
                refused(&checking, 2, |m| m.check_close(&padded[17 - other..]));
            }
            for bit in 0..8 * length {
                let mut other = tag.to_vec();
                other[bit / 8] ^= 1 << (bit % 8);
                let mut machine = checking.clone();
                assert_eq!(machine.check_close(&other), Err(7));
                assert_eq!((machine.phase(), machine.steps()), (Phase::Closed, steps));
            }
            let done = checking.check_close(tag);
            assert_eq!(done, Ok(Done { bytes: 0, steps }));
        }
    }

    #[test]
    fn number_5_counts_data_and_text_by_themselves() {
        let mut machine = in_phase(Kind::Sealing, Phase::Data);
        refused(&machine, 5, |m| m.data(&[0; 65_533]));
        machine.data(&[0; 65_532]).unwrap();
        assert_eq!(machine.data_bytes(), 65_536);
        refused(&machine, 5, |m| m.data(&[0]));
        machine.data(&[]).unwrap();

        // 5 wins over 6.
        refused(&machine, 5, |m| m.seal_text(&[0; 65_537], &mut []));
        refused(&machine, 6, |m| m.seal_text(&[0; 65_536], &mut [0; 65_535]));
        let mut out = vec![0; 65_536];
        machine.seal_text(&[0; 65_536], &mut out).unwrap();
        assert_eq!(machine.text_bytes(), 65_536);
        refused(&machine, 5, |m| m.seal_text(&[0], &mut [0]));
        machine.seal_text(&[], &mut []).unwrap();
        let done = machine.seal_close(&mut [0; 16]).unwrap();
        assert_eq!(done.steps, 3_072 + 8 * 2 * 65_536);

        let mut machine = in_phase(Kind::Checking, Phase::Text);
        refused(&machine, 5, |m| m.check_text(&[0; 65_533]));
        machine.check_text(&[0; 65_532]).unwrap();
        refused(&machine, 5, |m| m.check_text(&[0]));
    }

    #[test]
    fn number_6_for_text_and_tag() {
        for phase in [Phase::Data, Phase::Text] {
            let machine = in_phase(Kind::Sealing, phase);
            refused(&machine, 6, |m| m.seal_text(&[0; 3], &mut [0; 2]));
            refused(&machine, 6, |m| m.seal_close(&mut [0; 15]));
        }
    }

    #[test]
    fn a_refused_call_writes_nothing() {
        let mut machine = in_phase(Kind::Sealing, Phase::Data);
        let mut out = [0xAA; 15];
        assert_eq!(machine.seal_close(&mut out), Err(6));
        assert_eq!(machine.seal_text(&[0; 16], &mut out), Err(6));
        let mut checking = in_phase(Kind::Checking, Phase::Data);
        assert_eq!(checking.seal_text(&[0; 3], &mut out), Err(1));
        assert_eq!(out, [0xAA; 15]);
    }

    #[test]
    fn number_7_closes_with_all_steps_counted() {
        for phase in [Phase::Data, Phase::Text] {
            let mut machine = in_phase(Kind::Checking, phase);
            let bytes = machine.data_bytes() + machine.text_bytes();
            assert_eq!(machine.check_close(&[0; 16]), Err(7));
            assert_eq!(machine.phase(), Phase::Closed);
            assert_eq!(machine.steps(), 3_072 + 8 * bytes);
            assert_eq!(machine.bits(), [false; STATE_BITS]);
        }
    }

    #[test]
    fn a_good_check_says_so() {
        let mut out = [0; 20];
        message::seal(&KEY, &NONCE, b"data", b"text", &mut out).unwrap();
        let mut machine = in_phase(Kind::Checking, Phase::Data);
        machine.check_text(&out[..4]).unwrap();
        for turned in 0..128 {
            let mut other = machine.clone();
            let mut tag = out[4..].to_vec();
            tag[turned / 8] ^= 1 << (turned % 8);
            assert_eq!(other.check_close(&tag), Err(7));
        }
        let steps = 3_072 + 8 * 8;
        assert_eq!(machine.check_close(&out[4..]), Ok(Done { bytes: 0, steps }));
    }

    #[test]
    fn an_empty_text_call_ends_the_data() {
        let mut machine = in_phase(Kind::Sealing, Phase::Data);
        let before = machine.steps();
        let done = machine.seal_text(&[], &mut []).unwrap();
        let steps = before + 256;
        assert_eq!(done, Done { bytes: 0, steps });
        assert_eq!(machine.phase(), Phase::Text);
    }

    #[test]
    fn an_accepted_call_writes_nothing_behind() {
        let mut machine = in_phase(Kind::Sealing, Phase::Data);
        let mut out = [0xAA; 40];
        assert_eq!(machine.seal_text(&[1; 5], &mut out).unwrap().bytes, 5);
        assert_eq!(out[5..], [0xAA; 35]);
        let mut out = [0xAA; 40];
        assert_eq!(machine.seal_close(&mut out).unwrap().bytes, 16);
        assert_eq!(out[16..], [0xAA; 24]);
    }

    /// Cuts `bytes` into pieces of random length, some of them empty.
    fn pieces<'a>(random: &mut XorShift, mut bytes: &'a [u8]) -> Vec<&'a [u8]> {
        let mut list = Vec::new();
        while !bytes.is_empty() {
            let (piece, rest) = bytes.split_at(random.below(bytes.len().min(40) + 1));
            list.push(piece);
            bytes = rest;
        }
        list
    }

    #[test]
    fn random_pieces_make_the_whole_message() {
        let mut random = XorShift::new(21);
        for round in 0..150 {
            let (key, nonce) = (random.block(), random.block());
            let (data_bytes, text_bytes) = (random.below(100), random.below(200));
            let (data, text) = (random.bytes(data_bytes), random.bytes(text_bytes));
            let t = 8 + round % 9;
            let mut whole = vec![0; text.len() + t];
            let written = message::seal_tag(&key, &nonce, &data, &text, t, &mut whole).unwrap();
            assert_eq!(written, whole.len());

            let mut sealing = Machine::fresh(Kind::Sealing);
            let mut checking = Machine::fresh(Kind::Checking);
            let mut expected = 1_792;
            assert_eq!(sealing.begin_tag(&key, &nonce, t).unwrap().steps, expected);
            checking.begin_tag(&key, &nonce, t).unwrap();
            for piece in pieces(&mut random, &data) {
                // Refused calls in between leave no trace.
                if random.below(4) == 0 {
                    assert_eq!(sealing.begin(&key, &nonce), Err(1));
                    assert_eq!(sealing.check_text(piece), Err(1));
                    assert_eq!(sealing.data(&[7; 65_537]), Err(5));
                }
                expected += 8 * piece.len() as u64;
                let done = sealing.data(piece).unwrap();
                assert_eq!((done.bytes, done.steps), (0, expected));
                checking.data(piece).unwrap();
                assert_eq!(sealing.bits(), checking.bits());
            }
            expected += 256;

            let mut sealed = Vec::new();
            for piece in pieces(&mut random, &text) {
                if random.below(4) == 0 {
                    assert_eq!(sealing.seal_text(&[7; 3], &mut [0; 2]), Err(6));
                    assert_eq!(checking.check_close(&vec![0; t - 1]), Err(2));
                }
                expected += 8 * piece.len() as u64;
                let mut out = [0; 64];
                let done = sealing.seal_text(piece, &mut out).unwrap();
                assert_eq!((done.bytes, done.steps), (piece.len(), expected));
                sealed.extend_from_slice(&out[..done.bytes]);
                checking.check_text(&out[..done.bytes]).unwrap();
                assert_eq!(sealing.bits(), checking.bits());
                assert_eq!(sealing.data(piece), Err(1));
            }
            let mut tag = vec![0; t];
            let done = sealing.seal_close(&mut tag).unwrap();
            sealed.extend_from_slice(&tag);
            assert_eq!(sealed, whole);
            let steps = 3_072 + 8 * (data.len() + text.len()) as u64;
            assert_eq!(done, Done { bytes: t, steps });

            if round % 2 == 0 {
                let done = checking.check_close(&tag).unwrap();
                assert_eq!(done, Done { bytes: 0, steps });
            } else {
                tag[random.below(t)] ^= 1 << random.below(8);
                assert_eq!(checking.check_close(&tag), Err(7));
                assert_eq!(checking.steps(), steps);
            }
            assert_eq!(checking.phase(), Phase::Closed);
        }
    }
}
