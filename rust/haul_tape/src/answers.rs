//! The answers of the exports as results.

use crate::exports::{Answer, Opened, Paired, Parted, TruckCount, TruckCounts};
use crate::exports::{UnpackedHead, UnpackedTicket, Written};
use crate::{Done, Head, Refusal, Ticket};

impl Refusal {
    /// What an answer's field `refused` says.
    pub(crate) fn check(refused: u32) -> Result<(), Refusal> {
        if refused == 0 {
            return Ok(());
        }
        Err(Refusal::from_number(refused).expect("a number of the library"))
    }
}

impl Written {
    /// The bytes written.
    pub(crate) fn into_result(self) -> Result<usize, Refusal> {
        Refusal::check(self.refused)?;
        Ok(self.bytes as usize)
    }
}

impl Answer {
    pub(crate) fn into_result(self) -> Result<Done, Refusal> {
        Refusal::check(self.refused)?;
        Ok(Done {
            bytes: self.bytes as usize,
            steps: self.steps,
        })
    }
}

impl Opened {
    pub(crate) fn into_result(self) -> Result<crate::Opened, Refusal> {
        Refusal::check(self.refused)?;
        Ok(crate::Opened {
            tickets: self.tickets as usize,
            net: self.net,
        })
    }
}

impl UnpackedTicket {
    pub(crate) fn into_result(self) -> Result<Ticket, Refusal> {
        Refusal::check(self.refused)?;
        Ok(self.ticket)
    }
}

impl UnpackedHead {
    pub(crate) fn into_result(self) -> Result<Head, Refusal> {
        Refusal::check(self.refused)?;
        Ok(self.head)
    }
}

impl TruckCount {
    /// The number of trucks.
    pub(crate) fn into_result(self) -> Result<u32, Refusal> {
        Refusal::check(self.refused)?;
        Ok(self.trucks)
    }
}

impl TruckCounts {
    pub(crate) fn into_result(self) -> Result<crate::TruckCounts, Refusal> {
        Refusal::check(self.refused)?;
        Ok(crate::TruckCounts {
            both: self.both,
            either: self.either,
            just_one: self.just_one,
        })
    }
}

impl Paired {
    pub(crate) fn into_result(self) -> Result<crate::Paired, Refusal> {
        Refusal::check(self.refused)?;
        Ok(crate::Paired {
            pairs: self.pairs as usize,
            left_first: self.left_first as usize,
            left_second: self.left_second as usize,
        })
    }
}

impl Parted {
    /// Whether the receptions part, and where.
    pub(crate) fn into_result(self) -> Result<(), crate::Parted> {
        Refusal::check(self.refused).map_err(|_| crate::Parted {
            place: self.place as usize,
        })
    }
}
