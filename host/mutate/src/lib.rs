//! Small mechanical edits of the proved sources, each put to the prover: is it refused?

#![forbid(unsafe_code)]

pub mod blocks;
pub mod choice;
pub mod code;
pub mod command;
pub mod copies;
pub mod edit;
pub mod ending;
pub mod equivalents;
pub mod kinds;
pub mod mutant;
pub mod prover;
pub mod report;
pub mod repository;
pub mod run;
pub mod tokens;
