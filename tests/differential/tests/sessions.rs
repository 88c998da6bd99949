//! Lists of session calls of both kinds.

use haul_tape::{message, Checking, Refusal, Sealing};
use haul_tape_differential::both;
use haul_tape_differential::calls::{SessionCall, Sessions};
use haul_tape_differential::random::{turned, Random, WRONG_TAG_BYTES};
use haul_tape_twin::cipher;
use haul_tape_twin::machine::{Kind, Phase};

/// What a session has taken: what its tag follows from.
#[derive(Default)]
struct Taken {
    key: Vec<u8>,
    nonce: Vec<u8>,
    data: Vec<u8>,
    ciphertext: Vec<u8>,
}

impl Taken {
    fn note(&mut self, call: &SessionCall) {
        match call {
            SessionCall::Begin { key, nonce } | SessionCall::BeginTag { key, nonce, .. } => {
                self.key.clone_from(key);
                self.nonce.clone_from(nonce);
            }
            SessionCall::Data { piece } => self.data.extend(piece),
            SessionCall::CheckText { piece } => self.ciphertext.extend(piece),
            _ => {}
        }
    }

    /// The sixteen bytes of the tag of what was taken; any bytes if there is none.
    fn tag(&self) -> Vec<u8> {
        match (
            self.key.as_slice().try_into(),
            self.nonce.as_slice().try_into(),
        ) {
            (Ok(key), Ok(nonce)) => {
                let (_, tag) = cipher::open(key, nonce, &self.data, &self.ciphertext, 16);
                tag
            }
            _ => vec![0; 16],
        }
    }
}

/// The length of a piece: mostly short, often empty, at times up to or over what is left.
fn piece_length(random: &mut Random, taken: u64) -> usize {
    let left = 65_536 - taken as usize;
    match random.below(60) {
        0 => left,
        1 => left + 1,
        2 => 65_537,
        3..10 => 0,
        10..30 => random.below(9),
        30..50 => random.below(40),
        _ => random.below(200),
    }
}

/// 16 bytes, or rarely some other number.
fn sixteen(random: &mut Random) -> Vec<u8> {
    let length = random.pick(&[16, 16, 16, 16, 16, 16, 0, 15, 17]);
    random.bytes(length)
}

/// Any call, likely to fit kind and phase.
fn random_call(random: &mut Random, sessions: &Sessions, taken: &Taken) -> SessionCall {
    let machine = sessions.twin();
    let fits = !random.once_in(6);
    let seals = machine.kind() == Kind::Sealing;
    let choice = match machine.phase() {
        Phase::Fresh if fits => 0,
        Phase::Data if fits => random.pick(&[1, 1, 1, 1, 2, 3]),
        Phase::Text if fits => random.pick(&[2, 2, 2, 2, 2, 3]),
        _ => random.below(4),
    };
    let other_kind = random.once_in(8);
    match (choice, seals != other_kind) {
        (0, _) if random.once_in(3) => SessionCall::Begin {
            key: sixteen(random),
            nonce: sixteen(random),
        },
        (0, _) => SessionCall::BeginTag {
            key: sixteen(random),
            nonce: sixteen(random),
            tag_bytes: random.any_tag_bytes(),
        },
        (1, _) => {
            let length = piece_length(random, machine.data_bytes());
            let piece = random.bytes(length);
            SessionCall::Data { piece }
        }
        (2, true) => {
            let length = piece_length(random, machine.text_bytes());
            let piece = random.bytes(length);
            let room = match random.below(8) {
                0 => length.saturating_sub(1),
                1 => random.below(length + 1),
                2 => length + random.below(40),
                _ => length,
            };
            SessionCall::SealText { piece, room }
        }
        (2, false) => {
            let length = piece_length(random, machine.text_bytes());
            let piece = random.bytes(length);
            SessionCall::CheckText { piece }
        }
        (_, true) => {
            let fixed = machine.tag_bytes();
            let room = random.pick(&[fixed, fixed, fixed - 1, fixed + 1, 0, 7, 8, 15, 16, 17, 40]);
            SessionCall::SealClose { room }
        }
        (_, false) => {
            let fixed = machine.tag_bytes();
            let sixteen_bytes = taken.tag();
            let tag = &sixteen_bytes[16 - fixed..];
            let tag = match random.below(9) {
                0 => sixteen(random),
                1 => random.bytes(fixed),
                2..=3 => turned(tag, random.below(8 * fixed)),
                // of the sixteen, the last bytes of another length, and those at the front
                4 => sixteen_bytes[16 - random.tag_bytes()..].to_vec(),
                5 => sixteen_bytes[..fixed].to_vec(),
                6 => [tag, &[0]].concat(),
                _ => tag.to_vec(),
            };
            SessionCall::CheckClose { tag }
        }
    }
}

#[test]
fn random_lists() {
    let mut random = Random::for_test();
    let mut refused = [0; 10];
    // good tags and tags written, by their length
    let (mut good, mut written) = ([0; 17], [0; 17]);
    for round in 0..6_000 {
        let kind = [Kind::Sealing, Kind::Checking][round % 2];
        let mut sessions = Sessions::fresh(kind);
        let mut taken = Taken::default();
        for _ in 0..2 + random.below(22) {
            let call = random_call(&mut random, &sessions, &taken);
            match sessions.call(&call).answer {
                Ok(done) => {
                    taken.note(&call);
                    match call {
                        SessionCall::CheckClose { tag } => good[tag.len()] += 1,
                        SessionCall::SealClose { .. } => written[done.bytes] += 1,
                        _ => {}
                    }
                }
                Err(number) => refused[usize::from(number)] += 1,
            }
            if sessions.twin().phase() == Phase::Closed && random.once_in(3) {
                break;
            }
        }
        let machine = sessions.twin();
        if machine.phase() == Phase::Closed {
            let bytes = machine.data_bytes() + machine.text_bytes();
            assert_eq!(machine.steps(), 3_072 + 8 * bytes);
        }
    }
    println!("refused, by number: {:?}", &refused[1..]);
    println!("good tags and tags written, by length: {good:?} {written:?}");
    assert!([1, 2, 5, 6, 7, 9].iter().all(|&number| refused[number] > 0));
    for length in 0..=16 {
        let may_be = length >= 8;
        assert_eq!((good[length] > 0, written[length] > 0), (may_be, may_be));
    }
}

/// A message taken by a session of either kind, up to its close.
struct Message {
    key: Vec<u8>,
    nonce: Vec<u8>,
    data: Vec<u8>,
    text: Vec<u8>,
    ciphertext: Vec<u8>,
    /// The sixteen bytes.
    tag: Vec<u8>,
}

impl Message {
    fn random(random: &mut Random) -> Message {
        let (data_bytes, text_bytes) = (random.below(40), random.below(70));
        let (key, nonce) = (random.bytes(16), random.bytes(16));
        let (data, text) = (random.bytes(data_bytes), random.bytes(text_bytes));
        let mut ciphertext = both::seal(&key, &nonce, &data, &text, text_bytes + 16).out;
        let tag = ciphertext.split_off(text_bytes);
        Message {
            key,
            nonce,
            data,
            text,
            ciphertext,
            tag,
        }
    }

    /// A begin with this length; with none it means sixteen.
    fn begin(&self, tag_bytes: Option<usize>) -> SessionCall {
        let (key, nonce) = (self.key.clone(), self.nonce.clone());
        match tag_bytes {
            None => SessionCall::Begin { key, nonce },
            Some(tag_bytes) => SessionCall::BeginTag {
                key,
                nonce,
                tag_bytes,
            },
        }
    }

    /// A begin with this length and a key that is too short.
    fn begin_refused(&self, tag_bytes: usize) -> SessionCall {
        SessionCall::BeginTag {
            key: self.key[1..].to_vec(),
            nonce: self.nonce.clone(),
            tag_bytes,
        }
    }

    /// Hands on data and text, cut anywhere. Calls that are refused may stand between them.
    fn take(&self, random: &mut Random, sessions: &mut Sessions, between: &[SessionCall]) {
        let refused = |sessions: &mut Sessions, random: &mut Random| {
            for call in between.iter().filter(|_| random.once_in(2)) {
                assert_eq!(sessions.call(call).answer, Err(1));
            }
        };
        for piece in cut(random, &self.data) {
            let piece = piece.to_vec();
            sessions.call(&SessionCall::Data { piece }).answer.unwrap();
            refused(sessions, random);
        }
        let seals = sessions.twin().kind() == Kind::Sealing;
        let (taken, mut written) = match seals {
            true => (&self.text, Vec::new()),
            false => (&self.ciphertext, self.ciphertext.clone()),
        };
        for piece in cut(random, taken) {
            let (piece, room) = (piece.to_vec(), piece.len());
            let ran = sessions.call(&match seals {
                true => SessionCall::SealText { piece, room },
                false => SessionCall::CheckText { piece },
            });
            ran.answer.unwrap();
            written.extend(ran.out);
            refused(sessions, random);
        }
        assert_eq!(written, self.ciphertext);
    }

    /// A session of this kind that was begun by the call and has taken data and text.
    fn taken(&self, random: &mut Random, kind: Kind, begin: &SessionCall) -> Sessions {
        let mut sessions = Sessions::fresh(kind);
        sessions.call(begin).answer.unwrap();
        self.take(random, &mut sessions, &[]);
        sessions
    }

    /// Closes as the length says: with outputs and tags of other lengths first, which are refused.
    fn close(&self, sessions: &mut Sessions, tag_bytes: usize, room: usize) {
        let tag = &self.tag[16 - tag_bytes..];
        match sessions.twin().kind() {
            Kind::Sealing => {
                for room in [0, 7, tag_bytes - 1] {
                    let ran = sessions.call(&SessionCall::SealClose { room });
                    assert_eq!(ran.answer, Err(6));
                }
                let ran = sessions.call(&SessionCall::SealClose { room });
                assert_eq!(ran.answer.unwrap().bytes, tag_bytes);
                assert_eq!(ran.out[..tag_bytes], *tag);
                assert_eq!(ran.out[tag_bytes..], both::pattern(room)[tag_bytes..]);
            }
            Kind::Checking => {
                let longer = [&[1], &self.tag[..]].concat();
                for length in (0..=17).filter(|&length| length != tag_bytes) {
                    let tag = longer[17 - length..].to_vec();
                    let ran = sessions.call(&SessionCall::CheckClose { tag });
                    assert_eq!(ran.answer, Err(2));
                }
                let tag = tag.to_vec();
                let ran = sessions.call(&SessionCall::CheckClose { tag });
                assert_eq!(ran.answer.unwrap().bytes, 0);
            }
        }
        let machine = sessions.twin();
        let bytes = self.data.len() + self.text.len();
        assert_eq!(machine.steps(), 3_072 + 8 * bytes as u64);
        assert_eq!(machine.tag_bytes(), tag_bytes);
        assert_eq!(sessions.call(&self.begin(Some(8))).answer, Err(1));
        assert_eq!(sessions.call(&self.begin(Some(7))).answer, Err(1));
    }
}

const KINDS: [Kind; 2] = [Kind::Sealing, Kind::Checking];

/// Every length, with outputs from the tag's length on. However a message is cut, ended sessions
/// with one length are alike.
#[test]
fn every_length_of_tag() {
    let mut random = Random::for_test();
    for tag_bytes in 8..=16 {
        let m = Message::random(&mut random);
        for kind in KINDS {
            for room in [tag_bytes, tag_bytes + 1, 16, 17, 40] {
                let mut sessions = m.taken(&mut random, kind, &m.begin(Some(tag_bytes)));
                m.close(&mut sessions, tag_bytes, room);
            }
        }
        // Without data and text calls, too.
        let (key, nonce) = (m.key.clone(), m.nonce.clone());
        let tag = both::seal_tag(&key, &nonce, &[], &[], tag_bytes, tag_bytes).out;
        let mut sessions = Sessions::fresh(Kind::Sealing);
        sessions.call(&m.begin(Some(tag_bytes))).answer.unwrap();
        let ran = sessions.call(&SessionCall::SealClose { room: tag_bytes });
        assert_eq!(ran.out, tag);
    }
    // The begin without a length means sixteen.
    let m = Message::random(&mut random);
    for kind in KINDS {
        let mut sessions = m.taken(&mut random, kind, &m.begin(None));
        m.close(&mut sessions, 16, 40);
    }
}

/// A checking close with one bit of the tag turned, for every bit of every length.
#[test]
fn every_bit_of_a_tag() {
    let mut random = Random::for_test();
    for tag_bytes in 8..=16 {
        let m = Message::random(&mut random);
        for bit in 0..8 * tag_bytes {
            let begin = m.begin(Some(tag_bytes));
            let mut sessions = m.taken(&mut random, Kind::Checking, &begin);
            let tag = turned(&m.tag[16 - tag_bytes..], bit);
            let ran = sessions.call(&SessionCall::CheckClose { tag });
            assert_eq!(ran.answer, Err(7));
            assert_eq!(sessions.twin().phase(), Phase::Closed);
            assert_eq!(sessions.twin().tag_bytes(), tag_bytes);
        }
    }
}

/// Begins that are refused, with any other length, before the accepted one and behind it.
#[test]
fn refused_begins_fix_no_length() {
    let mut random = Random::for_test();
    for kind in KINDS {
        for fixed in (8..=16).map(Some).chain([None]) {
            for other in 8..=16 {
                let m = Message::random(&mut random);
                let mut sessions = Sessions::fresh(kind);
                let wrong = random.pick(&WRONG_TAG_BYTES);
                for (call, number) in [
                    (m.begin_refused(other), 2),
                    (m.begin_refused(wrong), 9),
                    (m.begin(Some(wrong)), 9),
                    (m.begin_refused(other), 2),
                ] {
                    assert_eq!(sessions.call(&call).answer, Err(number));
                    assert_eq!(sessions.twin().tag_bytes(), 16);
                }
                sessions.call(&m.begin(fixed)).answer.unwrap();
                let between = [
                    m.begin(Some(other)),
                    m.begin(Some(wrong)),
                    m.begin_refused(other),
                    m.begin_refused(wrong),
                    m.begin(None),
                ];
                for call in &between {
                    assert_eq!(sessions.call(call).answer, Err(1));
                }
                m.take(&mut random, &mut sessions, &between);
                m.close(&mut sessions, fixed.unwrap_or(16), 20);
            }
        }
    }
}

/// 1, then 9, then 2, for every length that no tag has.
#[test]
fn lengths_that_no_tag_has() {
    let mut random = Random::for_test();
    let m = Message::random(&mut random);
    for kind in KINDS {
        for wrong in WRONG_TAG_BYTES {
            let mut sessions = Sessions::fresh(kind);
            for (key_bytes, nonce_bytes) in [(16, 16), (15, 16), (16, 0), (17, 17)] {
                let call = SessionCall::BeginTag {
                    key: random.bytes(key_bytes),
                    nonce: random.bytes(nonce_bytes),
                    tag_bytes: wrong,
                };
                assert_eq!(sessions.call(&call).answer, Err(9));
            }
            sessions.call(&m.begin(Some(9))).answer.unwrap();
            assert_eq!(sessions.call(&m.begin(Some(wrong))).answer, Err(1));
            assert_eq!(sessions.call(&m.begin_refused(wrong)).answer, Err(1));
            m.take(&mut random, &mut sessions, &[m.begin(Some(wrong))]);
            m.close(&mut sessions, 9, 9);
            assert_eq!(sessions.call(&m.begin(Some(wrong))).answer, Err(1));
        }
    }
}

/// Pieces of random lengths, some of them empty.
fn cut<'a>(random: &mut Random, mut bytes: &'a [u8]) -> Vec<&'a [u8]> {
    let mut pieces = Vec::new();
    while !bytes.is_empty() {
        let (piece, rest) = bytes.split_at(random.below(bytes.len().min(40) + 1));
        pieces.push(piece);
        bytes = rest;
    }
    pieces
}

/// The typed sessions, however a message is cut, beside the whole message.
#[test]
fn typed_sessions() {
    let mut random = Random::for_test();
    for round in 0..1_000 {
        // Every second time without a length, which means sixteen.
        let t = match round % 2 {
            0 => 16,
            _ => random.tag_bytes(),
        };
        let (key, nonce) = (random.block(), random.block());
        let (data_bytes, text_bytes) = (random.below(100), random.below(200));
        let (data, text) = (random.bytes(data_bytes), random.bytes(text_bytes));
        let whole = match round % 2 {
            0 => message::seal_to_vec(&key, &nonce, &data, &text),
            _ => message::seal_tag_to_vec(&key, &nonce, &data, &text, t),
        };
        let whole = whole.unwrap();
        let steps = 3_072 + 8 * (data_bytes + text_bytes) as u64;

        let mut sealing = Sealing::default();
        assert_eq!(sealing.data(&data), Err(Refusal::Phase));
        let wrong = sealing.begin_tag(&key, &nonce, 17);
        assert_eq!(wrong, Err(Refusal::TagLength));
        let begun = match round % 2 {
            0 => sealing.begin(&key, &nonce),
            _ => sealing.begin_tag(&key, &nonce, t),
        };
        assert_eq!(begun.unwrap().steps, 1_792);
        for piece in cut(&mut random, &data) {
            sealing.data(piece).unwrap();
        }
        let mut sealed = vec![0; whole.len()];
        let mut at = 0;
        for piece in cut(&mut random, &text) {
            at += sealing.text(piece, &mut sealed[at..]).unwrap().bytes;
        }
        assert_eq!(sealing.close(&mut vec![0; t - 1]), Err(Refusal::Output));
        let done = sealing.close(&mut sealed[at..]).unwrap();
        assert_eq!((at, done.bytes, done.steps), (text_bytes, t, steps));
        assert_eq!(sealed, whole);

        let (ciphertext, tag) = whole.split_at(text_bytes);
        for right in [true, false] {
            let mut checking = Checking::default();
            let wrong = checking.begin_tag(&key, &nonce, 7);
            assert_eq!(wrong, Err(Refusal::TagLength));
            let begun = match round % 2 {
                0 => checking.begin(&key, &nonce),
                _ => checking.begin_tag(&key, &nonce, t),
            };
            begun.unwrap();
            for piece in cut(&mut random, &data) {
                checking.data(piece).unwrap();
            }
            for piece in cut(&mut random, ciphertext) {
                assert_eq!(checking.text(piece).unwrap().bytes, 0);
            }
            assert_eq!(checking.close(&tag[1..]), Err(Refusal::Size));
            if right {
                let done = checking.close(tag).unwrap();
                assert_eq!((done.bytes, done.steps), (0, steps));
            } else {
                assert_eq!(checking.close(&vec![0; t]), Err(Refusal::Tag));
            }
            assert_eq!(checking.close(tag), Err(Refusal::Phase));
        }
    }
}
