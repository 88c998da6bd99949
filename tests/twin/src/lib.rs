//! The haul tape, written plainly from the papers.
//!
//! "Document 003" in the comments is the paper on ACORN-128 version 3; "document 01" is the paper
//! on the haul tape, and "document 02" the requests that came after it. The cipher runs one single
//! step after another, and each function is meant to be read beside the section named above it.
//!
//! Running time lies outside document 01: nothing here tries to hide secrets from a clock.

#![forbid(unsafe_code)]

pub mod cipher;
pub mod cutting;
pub mod forms;
pub mod listing;
pub mod machine;
pub mod message;
pub mod number;
pub mod pairing;
pub mod pay_sheet;
pub mod reader;
pub mod receptions;
pub mod tape;
pub mod ticket;
pub mod trucks;

#[cfg(test)]
mod testing;
