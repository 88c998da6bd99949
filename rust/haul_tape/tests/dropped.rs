//! What a session or writer that is dropped before its close leaves in its memory: zeros. The memory
//! is that of a frame that has ended, where the compiler leaves out a write that nobody reads; so
//! this says most in a release build.

use haul_tape::exports;
use haul_tape::{Checking, Head, Sealing, Writer};
use std::hint::black_box;
use std::ptr::{read_volatile, with_exposed_provenance};

const KEY: [u8; 16] = [1; 16];
const NONCE: [u8; 16] = [2; 16];
const HEAD: Head = Head {
    device: 7,
    shift: 2,
    sheet: 1,
};

/// Makes a value, uses it and drops it; answers its address.
#[inline(never)]
fn use_and_drop<T>(make: impl FnOnce() -> T, used: impl FnOnce(&mut T)) -> usize {
    let mut value = make();
    used(&mut value);
    black_box(&raw mut value).expose_provenance()
}

/// The same far down the stack, where no later call of this test writes.
#[inline(never)]
fn use_and_drop_far_down<T>(make: impl FnOnce() -> T, used: impl FnOnce(&mut T)) -> usize {
    let mut between = [0_u8; 30_000];
    black_box(&mut between);
    let address = use_and_drop(make, used);
    black_box(&mut between);
    address
}

/// The words in the memory of a value that was used and dropped.
fn left_behind<const WORDS: usize, T>(
    make: impl FnOnce() -> T,
    used: impl FnOnce(&mut T),
) -> [u64; WORDS] {
    assert_eq!(size_of::<T>(), 8 * WORDS);
    let first = with_exposed_provenance::<u64>(use_and_drop_far_down(make, used));
    let mut words = [0; WORDS];
    for (i, word) in words.iter_mut().enumerate() {
        // SAFETY: the language does not define this read, of the test's own stack below what is in
        // use; it works with this compiler, and the first test here fails where it does not.
        *word = unsafe { read_volatile(first.add(i)) };
    }
    words
}

#[test]
fn what_nobody_clears_is_seen() {
    let mut session = exports::Session::fresh_sealing();
    assert_eq!(session.begin(&KEY, &NONCE).refused, 0);
    let words = *session.words();
    assert!(words[..6].iter().all(|&word| word != 0), "the state");
    let left: [u64; 11] = left_behind(|| words, |words| _ = black_box(words));
    assert_eq!(left, words);

    let mut writer = exports::Writer::fresh();
    assert_eq!(writer.start(&KEY, HEAD, &mut [0; 9]).refused, 0);
    let words = *writer.words();
    assert!(words[..6].iter().all(|&word| word != 0), "the state");
    let left: [u64; 12] = left_behind(|| words, |words| _ = black_box(words));
    assert_eq!(left, words);
}

#[test]
fn a_dropped_session_leaves_zeros() {
    let left = left_behind(Sealing::new, |session| {
        session.begin(&KEY, &NONCE).unwrap();
        session.text(b"face", &mut [0; 4]).unwrap();
    });
    assert_eq!(left, [0; 11], "sealing");
    let left = left_behind(Checking::new, |session| {
        session.begin(&KEY, &NONCE).unwrap();
    });
    assert_eq!(left, [0; 11], "checking");
    let left = left_behind(Sealing::new, |session| {
        session.begin_tag(&KEY, &NONCE, 8).unwrap();
    });
    assert_eq!(left, [0; 11], "with a tag of 8 bytes");
    let left = left_behind(exports::Session::fresh_checking, |session| {
        assert_eq!(session.begin(&KEY, &NONCE).refused, 0);
    });
    assert_eq!(left, [0; 11], "of the exports");
}

#[test]
fn a_dropped_writer_leaves_zeros() {
    let left = left_behind(Writer::new, |writer| {
        writer.start(&KEY, HEAD, &mut [0; 9]).unwrap();
    });
    assert_eq!(left, [0; 12]);
    let left = left_behind(exports::Writer::fresh, |writer| {
        assert_eq!(writer.start(&KEY, HEAD, &mut [0; 9]).refused, 0);
    });
    assert_eq!(left, [0; 12], "of the exports");
}
