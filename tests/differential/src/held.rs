//! What the words of a session and of a writer hold, by the library's layout.

use haul_tape_twin::cipher::STATE_BITS;
use haul_tape_twin::machine::{Kind, Machine, Phase};
use haul_tape_twin::tape::{Writer, WriterPhase};

// The eleven words of a session: six of the state, and these.
const DATA_BYTES: usize = 6;
const TEXT_BYTES: usize = 7;
const STEPS: usize = 8;
/// Kind and phase are one number, from 0 to 7.
const KIND_AND_PHASE: usize = 9;
const TAG_BYTES: usize = 10;

// The twelve words of a writer: the first ten of its session, whose tag is full, and these.
const TICKETS: usize = 10;
const WRITER_PHASE: usize = 11;

/// Where the bits of each of the state's words begin, and where the last ones end. A word has them
/// in its highest places.
const FIRST_BITS: [usize; 7] = [0, 61, 107, 154, 193, 230, STATE_BITS];

/// What a session holds.
#[derive(Clone, PartialEq, Eq, Debug)]
pub struct Held {
    pub kind: Kind,
    pub phase: Phase,
    pub data_bytes: u64,
    pub text_bytes: u64,
    pub tag_bytes: u64,
    pub steps: u64,
    /// S0 to S292; `None` once closed, where they are left to choice.
    pub bits: Option<[bool; STATE_BITS]>,
}

impl Held {
    /// What the library's session holds in its words.
    pub fn in_words(words: &[u64; 11]) -> Held {
        let number = words[KIND_AND_PHASE];
        let (kind, phase) = match number {
            0 => (Kind::Sealing, Phase::Fresh),
            1 => (Kind::Sealing, Phase::Data),
            2 => (Kind::Sealing, Phase::Text),
            3 => (Kind::Sealing, Phase::Closed),
            4 => (Kind::Checking, Phase::Fresh),
            5 => (Kind::Checking, Phase::Data),
            6 => (Kind::Checking, Phase::Text),
            7 => (Kind::Checking, Phase::Closed),
            _ => panic!("no kind and phase have number {number}"),
        };
        let mut bits = [false; STATE_BITS];
        for (word, ends) in words.iter().zip(FIRST_BITS.windows(2)) {
            let length = ends[1] - ends[0];
            for place in 0..length {
                bits[ends[0] + place] = word >> (64 - length + place) & 1 == 1;
            }
        }
        Held {
            kind,
            phase,
            data_bytes: words[DATA_BYTES],
            text_bytes: words[TEXT_BYTES],
            tag_bytes: words[TAG_BYTES],
            steps: words[STEPS],
            bits: (phase != Phase::Closed).then_some(bits),
        }
    }

    /// What the twin's machine holds.
    pub fn in_machine(machine: &Machine) -> Held {
        Held {
            kind: machine.kind(),
            phase: machine.phase(),
            data_bytes: machine.data_bytes(),
            text_bytes: machine.text_bytes(),
            tag_bytes: machine.tag_bytes() as u64,
            steps: machine.steps(),
            bits: (machine.phase() != Phase::Closed).then(|| machine.bits()),
        }
    }
}

/// What a writer holds.
#[derive(Clone, PartialEq, Eq, Debug)]
pub struct WriterHeld {
    pub phase: WriterPhase,
    pub tickets: u64,
    pub steps: u64,
}

impl WriterHeld {
    /// What the library's writer holds in its words.
    pub fn in_words(words: &[u64; 12]) -> WriterHeld {
        let number = words[WRITER_PHASE];
        WriterHeld {
            phase: match number {
                0 => WriterPhase::Fresh,
                1 => WriterPhase::Open,
                2 => WriterPhase::Closed,
                _ => panic!("no phase of a writer has number {number}"),
            },
            tickets: words[TICKETS],
            steps: words[STEPS],
        }
    }

    /// What the twin's writer holds.
    pub fn in_writer(writer: &Writer) -> WriterHeld {
        WriterHeld {
            phase: writer.phase(),
            tickets: writer.tickets(),
            steps: writer.steps(),
        }
    }
}
