//! The block counter a second time, written from the rules alone (docs/RULES.md), so that the two implementations can be
//! compared. It shares no code with the first and depends on nothing else in the repository.
//!
//! Counts are `Option<u16>`; the word 65,535 for none appears only where a word
//! is read or written.

#![forbid(unsafe_code)]

pub mod beat;
pub mod bytes;
pub mod card;
pub mod count;
pub mod group;
pub mod king;
pub mod lag;
pub mod params;
pub mod refusal;
pub mod runfile;
pub mod split;
pub mod text;
