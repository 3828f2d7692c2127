//! What the program answers to its arguments.

use std::env;
use std::io;
use std::path::PathBuf;

use crate::case::Case;
use crate::claims::crate_files;
use crate::definitions::Definitions;
use crate::kinds::{draw, KINDS};
use crate::prover::Repository;
use crate::report::{differences, figures};

const CASES: usize = 440;
const SEED: u64 = 1;

/// How many cases are drawn, and from where, or one line that says what is wrong with the arguments.
pub fn request(arguments: &[&str]) -> Result<(usize, u64), String> {
    let read = numbers(arguments);
    read.map_err(|message| format!("compare: {message}; try ./tsendurkho compare --help\n"))
}

fn numbers(arguments: &[&str]) -> Result<(usize, u64), String> {
    if let Some(option) = arguments.iter().find(|word| word.starts_with('-')) {
        return Err(format!("there is no option '{option}'"));
    }
    match *arguments {
        [] => Ok((CASES, SEED)),
        [cases] => Ok((count(cases)?, SEED)),
        [cases, seed] => Ok((count(cases)?, number(seed)?)),
        [_, _, extra, ..] => Err(format!("one argument too many: '{extra}'")),
    }
}

fn count(text: &str) -> Result<usize, String> {
    match text.parse() {
        Ok(cases) if cases > 0 => Ok(cases),
        _ => Err(format!("CASES has to be a number from 1 on, not '{text}'")),
    }
}

fn number(text: &str) -> Result<u64, String> {
    let parsed = text.parse();
    parsed.map_err(|_| format!("SEED has to be a number, not '{text}'"))
}

/// What goes to standard output, or to standard error where something is wrong.
pub fn answer(cases: usize, seed: u64) -> Result<String, String> {
    let compared = compare(&draw(cases, seed));
    compared.unwrap_or_else(|error| Err(format!("compare: {error}\n")))
}

/// Holds the cases against the definitions. Then the first case of each kind once more with
/// wrong values: were one of them not refused, nothing would be shown.
fn compare(cases: &[Case]) -> io::Result<Result<String, String>> {
    let root = root();
    let definitions = Definitions::read(&root.join("crates/rules/specs"))?;
    let repository = Repository::new(&root)?;
    let refused = repository.refused("cases", &crate_files(&definitions, cases))?;
    if !refused.is_empty() {
        return Ok(Err(differences(cases, &refused)));
    }
    let wrong: Vec<Case> = cases.iter().take(KINDS.len()).map(Case::damaged).collect();
    let refused = repository.refused("wrong", &crate_files(&definitions, &wrong))?;
    Ok(figures(cases, &wrong, &refused))
}

/// The root of the repository, asked at run time: a copy of the repository may have what was compiled elsewhere.
pub fn root() -> PathBuf {
    let package = env::var_os("CARGO_MANIFEST_DIR").expect("cargo names the package's folder");
    PathBuf::from(package).join("../..")
}
