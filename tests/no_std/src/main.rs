//! Uses the haul tape crate without std. The panic handler is this program's own, so that it cannot
//! be built where the crate brings in std's. Ends with 0 where a tape comes back as it was written.

#![no_std]
#![no_main]

use haul_tape::{open_tape, Head, Reader, Refusal, Ticket, Writer};

// The C library has the program's start, and memcpy and memset.
#[link(name = "c")]
extern "C" {
    fn abort() -> !;
}

#[panic_handler]
fn panic(_: &core::panic::PanicInfo) -> ! {
    // SAFETY: it may be called at any time.
    unsafe { abort() }
}

const KEY: [u8; 16] = [0, 1, 2, 3, 4, 5, 6, 7, 8, 9, 10, 11, 12, 13, 14, 15];

const TICKET: Ticket = Ticket {
    form: 1,
    truck: 5,
    shovel: 2,
    tip: 3,
    grade: 4,
    loaded: 3_600,
    tipped: 4_200,
    gross: 250_000,
    tare: 110_000,
};

fn comes_back() -> Result<bool, Refusal> {
    let head = Head {
        device: 7,
        shift: 2,
        sheet: 1,
    };
    let mut tape = [0; 25 + 13];
    let mut writer = Writer::new();
    writer.start(&KEY, head, &mut tape)?;
    writer.add(TICKET, &mut tape[9..])?;
    writer.finish(&mut tape[22..])?;
    let mut plain = [0; 25 + 13];
    let opened = open_tape(&KEY, &tape, &mut plain)?;
    let mut tickets = Reader::new(&plain[..opened.bytes()]);
    let right = tickets.next() == Some(Ok(TICKET)) && tickets.next().is_none();
    #[cfg(feature = "alloc")]
    let right = right && allocating::right(&tape);
    Ok(right)
}

#[no_mangle]
extern "C" fn main() -> i32 {
    i32::from(comes_back() != Ok(true))
}

/// The calls that allocate, over the C library's allocator.
#[cfg(feature = "alloc")]
mod allocating {
    use core::alloc::{GlobalAlloc, Layout};
    use haul_tape::{listing_to_string, message};

    extern "C" {
        fn malloc(bytes: usize) -> *mut u8;
        fn free(block: *mut u8);
    }

    struct OfC;

    #[global_allocator]
    static ALLOCATOR: OfC = OfC;

    // SAFETY: a block is null or as long as asked, and aligned to 16; bytes alone are asked for.
    unsafe impl GlobalAlloc for OfC {
        unsafe fn alloc(&self, layout: Layout) -> *mut u8 {
            malloc(layout.size())
        }

        unsafe fn dealloc(&self, block: *mut u8, _: Layout) {
            free(block);
        }
    }

    /// Whether listing, sealing and opening answer what they should.
    pub fn right(tape: &[u8]) -> bool {
        let listing = "TAPE 7 2 1\n1 5 2 3 4 3600 4200 140000\nTOTAL 1 140000\n";
        let sealed = message::seal_to_vec(&super::KEY, &[2; 16], b"shift 2", b"face 4");
        let opened = sealed
            .and_then(|sealed| message::open_to_vec(&super::KEY, &[2; 16], b"shift 2", &sealed));
        listing_to_string(&super::KEY, tape) == listing && opened.as_deref() == Ok(b"face 4")
    }
}
