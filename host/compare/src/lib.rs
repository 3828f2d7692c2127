//! The definitions of the rules against the second implementation. Random inputs are put into
//! claims "this definition of these inputs is what the second implementation says", and the
//! prover computes the definitions and proves or refuses each claim.

#![forbid(unsafe_code)]

pub mod calls;
pub mod case;
pub mod claims;
pub mod command;
pub mod definitions;
pub mod directed;
pub mod files;
pub mod kinds;
pub mod level;
pub mod prover;
pub mod report;
pub mod shapes;
pub mod value;
