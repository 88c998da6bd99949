use crate::{exports, Refusal, HEAD_BYTES, TICKET_BYTES};

/// One haul. Its net is `gross` minus `tare`: 0 for an empty trip, where they are equal.
///
/// A ticket has form 1, or form 2 for shifts of a whole day; a tape may have tickets of both.
///
/// A ticket is only data: its rule is checked where it is packed, moved to a form or written on a
/// tape, and holds of every ticket that was unpacked or read.
///
/// ```
/// use haul_tape::{Refusal, Ticket};
///
/// let ticket = Ticket {
///     form: 1,
///     truck: 5,
///     shovel: 2,
///     tip: 3,
///     grade: 4,
///     loaded: 3_600,
///     tipped: 4_200,
///     gross: 250_000,
///     tare: 110_000,
/// };
/// let packed = ticket.pack()?;
/// assert_eq!(packed[..4], [0x10, 0x14, 0x20, 0xD0]);
/// assert_eq!(Ticket::unpack(&packed)?, ticket);
///
/// let empty = Ticket { tare: 250_000, ..ticket };
/// assert_eq!(Ticket::unpack(&empty.pack()?)?, empty);
/// let wrong = Ticket { tare: 250_001, ..ticket };
/// assert_eq!(wrong.pack(), Err(Refusal::Ticket));
/// # Ok::<(), Refusal>(())
/// ```
#[repr(C)]
#[derive(Clone, Copy, PartialEq, Eq, Hash, Debug)]
pub struct Ticket {
    /// The ticket's form, 1 or 2.
    pub form: u8,
    /// The truck, 1 to 1,023.
    pub truck: u16,
    /// The shovel that loaded it, 1 to 63.
    pub shovel: u8,
    /// The tip point, 1 to 63.
    pub tip: u8,
    /// The grade of what was hauled, 0 to 9.
    pub grade: u8,
    /// When the truck was loaded, in seconds of the shift: at most `tipped`.
    pub loaded: u32,
    /// When it tipped, in seconds of the shift: at most 43,199 in form 1, at most 86,399 in form 2.
    pub tipped: u32,
    /// The weight of truck and load in kilograms, at most 1,048,575.
    pub gross: u32,
    /// The empty truck's weight in kilograms, at most `gross`.
    pub tare: u32,
}

impl Ticket {
    /// The ticket's 13 bytes.
    ///
    /// # Errors
    ///
    /// [`Refusal::Ticket`]: a field is outside its range, `loaded` is after `tipped`, or `tare` is
    /// above `gross`.
    pub fn pack(&self) -> Result<[u8; TICKET_BYTES], Refusal> {
        let mut packed = [0; TICKET_BYTES];
        exports::pack_ticket(*self, &mut packed).into_result()?;
        Ok(packed)
    }

    /// The ticket with these 13 bytes.
    ///
    /// # Errors
    ///
    /// The first of these that applies:
    ///
    /// - [`Refusal::Size`]: there are not 13 bytes
    /// - [`Refusal::Unpack`]: they are those of no ticket
    pub fn unpack(packed: &[u8]) -> Result<Ticket, Refusal> {
        exports::unpack_ticket(packed).into_result()
    }

    /// The ticket in this form, with every other field kept; as it is where it has the form already.
    /// From one form to the other and back it is the same ticket.
    ///
    /// # Errors
    ///
    /// The first of these that applies:
    ///
    /// - [`Refusal::Ticket`]: the form is neither 1 nor 2, or the ticket breaks a rule
    /// - [`Refusal::TooLate`]: the ticket has form 2 and is tipped after second 43,199, and form 1 is
    ///   asked for
    ///
    /// ```
    /// use haul_tape::{Refusal, Ticket};
    ///
    /// let ticket = Ticket {
    ///     form: 1,
    ///     truck: 5,
    ///     shovel: 2,
    ///     tip: 3,
    ///     grade: 4,
    ///     loaded: 3_600,
    ///     tipped: 4_200,
    ///     gross: 250_000,
    ///     tare: 110_000,
    /// };
    /// let moved = ticket.in_form(2)?;
    /// assert_eq!(moved, Ticket { form: 2, ..ticket });
    /// assert_eq!(moved.pack()?[..4], [0x20, 0x14, 0x20, 0xD0]);
    /// assert_eq!(moved.in_form(1)?.pack(), ticket.pack());
    ///
    /// let late = Ticket { tipped: 43_200, ..moved };
    /// assert_eq!(late.in_form(2), Ok(late));
    /// assert_eq!(late.in_form(1), Err(Refusal::TooLate));
    /// assert_eq!(late.in_form(3), Err(Refusal::Ticket));
    /// # Ok::<(), Refusal>(())
    /// ```
    pub fn in_form(&self, form: u8) -> Result<Ticket, Refusal> {
        exports::move_ticket(*self, form).into_result()
    }
}

/// What stands at the start of a tape.
///
/// ```
/// use haul_tape::{Head, Refusal};
///
/// let head = Head { device: 7, shift: 2, sheet: 1 };
/// let packed = head.pack()?;
/// assert_eq!(packed, [0, 0, 0, 7, 0, 0, 0x20, 0, 1]);
/// assert_eq!(Head::unpack(&packed)?, head);
/// assert_eq!(Head { device: 0, ..head }.pack(), Err(Refusal::Head));
/// # Ok::<(), Refusal>(())
/// ```
#[repr(C)]
#[derive(Clone, Copy, PartialEq, Eq, Hash, Debug)]
pub struct Head {
    /// The device that writes the tape, 1 or more.
    pub device: u32,
    /// The shift, 1 to 1,000,000.
    pub shift: u32,
    /// The sheet, 1 to 1,000,000.
    pub sheet: u32,
}

impl Head {
    /// The head's 9 bytes.
    ///
    /// # Errors
    ///
    /// [`Refusal::Head`]: a field is outside its range.
    pub fn pack(&self) -> Result<[u8; HEAD_BYTES], Refusal> {
        let mut packed = [0; HEAD_BYTES];
        exports::pack_head(*self, &mut packed).into_result()?;
        Ok(packed)
    }

    /// The head with these 9 bytes.
    ///
    /// # Errors
    ///
    /// The first of these that applies:
    ///
    /// - [`Refusal::Size`]: there are not 9 bytes
    /// - [`Refusal::Head`]: a field is outside its range
    pub fn unpack(packed: &[u8]) -> Result<Head, Refusal> {
        exports::unpack_head(packed).into_result()
    }
}
