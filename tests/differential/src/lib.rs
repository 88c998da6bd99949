//! The haul tape library beside its twin, and the conformance kit.
//!
//! The twin is an implementation of its own, written plainly from the papers. Every call here is
//! made on both, and a difference in answers, in lent bytes or in what a session or writer holds
//! ends the test.

pub mod both;
pub mod calls;
pub mod held;
pub mod kit;
pub mod random;
