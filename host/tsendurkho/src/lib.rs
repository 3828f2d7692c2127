//! The block counter of digitiser cards: the safe Rust face of the proved archive
//! `libtsendurkho.a`. docs/HOST.md leads to a first program, and docs/RULES.md has the rules.
//!
//! Up to sixteen cards share a beat that carries no number. On every beat each card hears a
//! record from every card, its own included, and makes its next record from them. The sound
//! cards come to show the same count modulo c, one more on each beat, even if up to f of the n
//! cards are broken.
//!
//! A record is W words ([`Rack::record_words`]), which RULES 4 describes. A card may start from
//! any words at all.
//!
//! ```
//! use tsendurkho::{Rack, Shape};
//!
//! // Two cards, none of them broken, count modulo 3: both go by the first (RULES 5.1).
//! let rack = Rack::new(Shape { cards: 2, broken: 0, modulus: 3 })?;
//! let heard = [2, 1];
//! let next = rack.step(rack.card(1)?, &heard)?;
//! assert_eq!(rack.shown_count(&next)?, Some(0));
//!
//! // Card 1 now shows 0, which is one ahead of 2.
//! assert_eq!(rack.lag(0, 2)?, 1);
//! # Ok::<(), tsendurkho::Refusal>(())
//! ```
//!
//! What the archive's functions return is proved for all inputs, and every refusal but that of
//! [`Rack::shown_count`] is the archive's own. [`Rack::shown_count`], [`record_words`] and
//! [`settle_beats`] are written here and tested.

#![deny(unsafe_code)]
#![warn(missing_docs)]

#[allow(unsafe_code)]
mod archive;
mod card;
mod parameters;
mod rack;
mod refusal;

pub use card::Card;
pub use parameters::{record_words, settle_beats};
pub use rack::{Rack, Shape};
pub use refusal::Refusal;

/// The word for none (RULES 1).
pub const NONE: u16 = 65_535;

/// What README.md and docs/HOST.md say of this crate is run as an example too.
#[cfg(doctest)]
mod pages {
    #[doc = include_str!("../../../README.md")]
    struct ReadMe;

    #[doc = include_str!("../../../docs/HOST.md")]
    struct Host;
}
