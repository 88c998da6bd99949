//! Lists of calls on sessions and on writers, made on library and twin at once.

use crate::both::{self, agree, Ran};
use crate::held::{Held, WriterHeld};
use haul_tape::{exports, Head, Ticket};
use haul_tape_twin::machine::{Done, Kind, Machine};
use haul_tape_twin::tape;

/// A call on a session with its arguments; `room` is the length of its output.
#[derive(Clone, PartialEq, Eq, Debug)]
pub enum SessionCall {
    Begin {
        key: Vec<u8>,
        nonce: Vec<u8>,
    },
    BeginTag {
        key: Vec<u8>,
        nonce: Vec<u8>,
        tag_bytes: usize,
    },
    Data {
        piece: Vec<u8>,
    },
    SealText {
        piece: Vec<u8>,
        room: usize,
    },
    SealClose {
        room: usize,
    },
    CheckText {
        piece: Vec<u8>,
    },
    CheckClose {
        tag: Vec<u8>,
    },
}

/// A call on a writer with its arguments; `room` is the length of its output.
#[derive(Clone, PartialEq, Eq, Debug)]
pub enum WriterCall {
    Start {
        key: Vec<u8>,
        head: Head,
        room: usize,
    },
    Add {
        ticket: Ticket,
        room: usize,
    },
    Finish {
        room: usize,
    },
}

/// A session of the library and a machine of the twin, which take the same calls.
pub struct Sessions {
    library: exports::Session,
    twin: Machine,
}

impl Sessions {
    pub fn fresh(kind: Kind) -> Sessions {
        let sessions = Sessions {
            library: match kind {
                Kind::Sealing => exports::Session::fresh_sealing(),
                Kind::Checking => exports::Session::fresh_checking(),
            },
            twin: Machine::fresh(kind),
        };
        sessions.compare();
        sessions
    }

    pub fn twin(&self) -> &Machine {
        &self.twin
    }

    #[track_caller]
    fn compare(&self) {
        let library = Held::in_words(self.library.words());
        assert_eq!(library, Held::in_machine(&self.twin));
    }

    #[track_caller]
    pub fn call(&mut self, call: &SessionCall) -> Ran<Done> {
        let Sessions { library, twin } = self;
        let ran = match call {
            SessionCall::Begin { key, nonce } => agree(
                "begin",
                &[key, nonce],
                0,
                |_| both::done(library.begin(key, nonce)),
                |_| twin.begin(key, nonce),
            ),
            SessionCall::BeginTag {
                key,
                nonce,
                tag_bytes,
            } => agree(
                "begin, with a length of the tag",
                &[key, nonce],
                0,
                |_| both::done(library.begin_tag(key, nonce, *tag_bytes)),
                |_| twin.begin_tag(key, nonce, *tag_bytes),
            ),
            SessionCall::Data { piece } => agree(
                "data",
                &[piece],
                0,
                |_| both::done(library.data(piece)),
                |_| twin.data(piece),
            ),
            SessionCall::SealText { piece, room } => agree(
                "text, sealing",
                &[piece],
                *room,
                |out| both::done(library.seal_text(piece, out)),
                |out| twin.seal_text(piece, out),
            ),
            SessionCall::SealClose { room } => agree(
                "close, sealing",
                &[],
                *room,
                |out| both::done(library.seal_close(out)),
                |out| twin.seal_close(out),
            ),
            SessionCall::CheckText { piece } => agree(
                "text, checking",
                &[piece],
                0,
                |_| both::done(library.check_text(piece)),
                |_| twin.check_text(piece),
            ),
            SessionCall::CheckClose { tag } => agree(
                "close, checking",
                &[tag],
                0,
                |_| both::done(library.check_close(tag)),
                |_| twin.check_close(tag),
            ),
        };
        self.compare();
        ran
    }
}

/// A writer of the library and one of the twin, which take the same calls.
pub struct Writers {
    library: exports::Writer,
    twin: tape::Writer,
}

impl Writers {
    pub fn fresh() -> Writers {
        let writers = Writers {
            library: exports::Writer::fresh(),
            twin: tape::Writer::fresh(),
        };
        writers.compare();
        writers
    }

    pub fn twin(&self) -> &tape::Writer {
        &self.twin
    }

    #[track_caller]
    fn compare(&self) {
        let library = WriterHeld::in_words(self.library.words());
        assert_eq!(library, WriterHeld::in_writer(&self.twin));
    }

    #[track_caller]
    pub fn call(&mut self, call: &WriterCall) -> Ran<Done> {
        let Writers { library, twin } = self;
        let ran = match call {
            WriterCall::Start { key, head, room } => agree(
                "start",
                &[key],
                *room,
                |out| both::done(library.start(key, *head, out)),
                |out| twin.start(key, &both::twin_head(*head), out),
            ),
            WriterCall::Add { ticket, room } => agree(
                "add",
                &[],
                *room,
                |out| both::done(library.add(*ticket, out)),
                |out| twin.add(&both::twin_ticket(*ticket), out),
            ),
            WriterCall::Finish { room } => agree(
                "finish",
                &[],
                *room,
                |out| both::done(library.finish(out)),
                |out| twin.finish(out),
            ),
        };
        self.compare();
        ran
    }
}

/// The tape of a head and tickets, written on library and twin.
#[track_caller]
pub fn write_tape(key: &[u8], head: Head, tickets: &[Ticket]) -> Vec<u8> {
    let mut calls = vec![WriterCall::Start {
        key: key.to_vec(),
        head,
        room: 9,
    }];
    calls.extend(
        tickets
            .iter()
            .map(|&ticket| WriterCall::Add { ticket, room: 13 }),
    );
    calls.push(WriterCall::Finish { room: 16 });
    let mut writers = Writers::fresh();
    let mut tape = Vec::new();
    for call in &calls {
        let ran = writers.call(call);
        ran.answer.expect("the tape can be written");
        tape.extend(ran.out);
    }
    tape
}
