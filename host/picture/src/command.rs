//! What the program does with its arguments.

use std::fs;

use simulate::command::{request, Request};
use simulate::cooldown::RIGHT;
use simulate::report::line;
use simulate::survey::Outcome;

use crate::archive::ARCHIVE;
use crate::picture;

/// The run that is drawn where none is asked for: the broken card sends different counts to different
/// cards, which show different counts and agree late.
pub const DRAWN: u64 = 63_915;

/// Why nothing was drawn, in words for standard error.
#[derive(Debug, PartialEq, Eq)]
pub enum Failure {
    WrongUse(String),
    NotWritten(String),
}

/// Draws a run into a file, and says how it went in one line.
pub fn answer(arguments: &[&str]) -> Result<String, Failure> {
    let (file, seed) = match request(arguments).map_err(Failure::WrongUse)? {
        Request::Picture { file, seed } => (file, seed.unwrap_or(DRAWN)),
        _ => return Err(wrong("--svg FILE is missing")),
    };
    let failed =
        |error| Failure::NotWritten(format!("simulate: '{file}' cannot be written: {error}\n"));
    fs::write(file, picture(seed)).map_err(failed)?;
    let run = Outcome::counted_by(ARCHIVE, seed, RIGHT, 1);
    Ok(format!("{}\n", line(&run)))
}

fn wrong(message: &str) -> Failure {
    Failure::WrongUse(format!(
        "simulate: {message}; try ./tsendurkho simulate --help\n"
    ))
}
