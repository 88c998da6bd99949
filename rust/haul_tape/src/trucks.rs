use crate::{exports, Refusal};

/// How many different trucks are on an opened tape.
///
/// Takes the tape's plain bytes, 13 for each ticket, as [`open_tape`](crate::open_tape) writes them:
/// `&out[..opened.bytes()]`.
///
/// ```
/// use haul_tape::{trucks, Refusal};
///
/// let packed = [0x10, 0x14, 0x20, 0xD0, 0x38, 0x40, 0x41, 0xA0, 0xF4, 0x24, 0x06, 0xB6, 0xC0];
/// assert_eq!(trucks(&packed.repeat(2)), Ok(1));
/// assert_eq!(trucks(&[]), Ok(0));
/// assert_eq!(trucks(&packed[1..]), Err(Refusal::Size));
/// assert_eq!(trucks(&[0; 13]), Err(Refusal::Unpack));
/// ```
///
/// # Errors
///
/// The first of these that applies:
///
/// - [`Refusal::Size`]: there are not 13n bytes with n at most 5,000
/// - [`Refusal::Unpack`]: a ticket does not unpack
pub fn trucks(plain: &[u8]) -> Result<u32, Refusal> {
    exports::trucks(plain).into_result()
}

/// How many different trucks are on two tapes.
///
/// `either` plus `both` is the number of the first tape's trucks plus that of the second's, and
/// `just_one` plus `both` is `either`.
#[derive(Clone, Copy, PartialEq, Eq, Debug)]
pub struct TruckCounts {
    /// Trucks on both tapes.
    pub both: u32,
    /// Trucks on one tape or both.
    pub either: u32,
    /// Trucks on one tape and not on the other.
    pub just_one: u32,
}

/// How many different trucks are on both of two opened tapes, on either, and on just one.
///
/// ```
/// use haul_tape::{open_tape, trucks, trucks_of_two, Head, Refusal, Ticket, TruckCounts, Writer};
///
/// let key = [1; 16];
/// let write = |sheet, trucks: [u16; 3]| {
///     let mut tape = [0; 25 + 3 * 13];
///     let mut writer = Writer::new();
///     let mut at = writer.start(&key, Head { device: 7, shift: 2, sheet }, &mut tape)?.bytes;
///     for truck in trucks {
///         let ticket = Ticket {
///             form: 1,
///             truck,
///             shovel: 2,
///             tip: 3,
///             grade: 4,
///             loaded: 3_600,
///             tipped: 4_200,
///             gross: 250_000,
///             tare: 110_000,
///         };
///         at += writer.add(ticket, &mut tape[at..])?.bytes;
///     }
///     writer.finish(&mut tape[at..])?;
///     Ok::<_, Refusal>(tape)
/// };
/// let early = write(1, [5, 12, 31])?;
/// let late = write(2, [12, 400, 12])?;
///
/// let (mut first, mut second) = ([0; 25 + 3 * 13], [0; 25 + 3 * 13]);
/// let bytes = open_tape(&key, &early, &mut first)?.bytes();
/// let first = &first[..bytes];
/// let bytes = open_tape(&key, &late, &mut second)?.bytes();
/// let second = &second[..bytes];
/// assert_eq!(trucks(first)?, 3);
/// assert_eq!(trucks(second)?, 2);
/// let counts = trucks_of_two(first, second)?;
/// assert_eq!(counts, TruckCounts { both: 1, either: 4, just_one: 3 });
/// # Ok::<(), Refusal>(())
/// ```
///
/// # Errors
///
/// The first of these that applies:
///
/// - [`Refusal::Size`]: a tape's bytes are not 13n with n at most 5,000
/// - [`Refusal::Unpack`]: a ticket of one of the tapes does not unpack
pub fn trucks_of_two(first: &[u8], second: &[u8]) -> Result<TruckCounts, Refusal> {
    exports::trucks_of_two(first, second).into_result()
}

/// The set of the trucks on an opened tape: truck k, 1 to 1,023, is in it where
/// `words[k / 64] >> (k % 64) & 1` is 1; all other bits are 0.
///
/// The trucks on at least one of several tapes are their words combined by `|`, those on all of them
/// by `&`; their number is the number of set bits.
///
/// ```
/// use haul_tape::{truck_set_of, Refusal, Ticket};
///
/// let plain = |trucks: [u16; 2]| {
///     let tickets = trucks.map(|truck| Ticket {
///         form: 1,
///         truck,
///         shovel: 2,
///         tip: 3,
///         grade: 4,
///         loaded: 3_600,
///         tipped: 4_200,
///         gross: 250_000,
///         tare: 110_000,
///     });
///     Ok::<_, Refusal>([tickets[0].pack()?, tickets[1].pack()?].concat())
/// };
///
/// let mut hauled = [0; 16];
/// for plain in [plain([5, 12])?, plain([12, 31])?, plain([31, 1_023])?] {
///     for (word, more) in hauled.iter_mut().zip(truck_set_of(&plain)?) {
///         *word |= more;
///     }
/// }
/// let trucks: u32 = hauled.iter().map(|word| word.count_ones()).sum();
/// assert_eq!(trucks, 4);
/// assert_eq!(hauled[0], 1 << 5 | 1 << 12 | 1 << 31);
/// assert_eq!(hauled[15], 1 << 63);
/// # Ok::<(), Refusal>(())
/// ```
///
/// # Errors
///
/// The first of these that applies:
///
/// - [`Refusal::Size`]: there are not 13n bytes with n at most 5,000
/// - [`Refusal::Unpack`]: a ticket does not unpack
pub fn truck_set_of(plain: &[u8]) -> Result<[u64; 16], Refusal> {
    let mut set = [0; 16];
    exports::truck_set_of(plain, &mut set).into_result()?;
    Ok(set)
}
