//! Runs of whole beats with broken cards that lie on purpose: how late do the sound cards agree?

#![forbid(unsafe_code)]

pub mod command;
pub mod cooldown;
pub mod counter;
pub mod directed;
mod divide;
pub mod level;
pub mod liars;
pub mod plan;
pub mod report;
pub mod scene;
pub mod start;
pub mod strategy;
pub mod survey;
