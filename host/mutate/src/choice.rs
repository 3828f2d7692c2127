//! Which of all mutants are listed or run. A mutant's number is its place among all of the crates asked for.

use std::collections::HashMap;

use crate::mutant::Mutant;

/// Those of the crates that have no mutant.
pub fn without_code<'a>(crates: &'a [String], mutants: &[Mutant]) -> Vec<&'a str> {
    let has_code = |library: &str| mutants.iter().any(|mutant| mutant.library == library);
    let names = crates.iter().map(String::as_str);
    names.filter(|library| !has_code(library)).collect()
}

#[derive(Clone, Debug, PartialEq, Eq)]
pub enum Choice {
    /// Evenly spread: of each kind in each crate the first, and then every nth.
    Spread,
    All,
    Numbered(usize),
    /// Those with the text in their name.
    Named(String),
}

impl Choice {
    /// What a word names: a number, or else a part of a name.
    pub fn only(word: &str) -> Choice {
        match word.parse() {
            Ok(number) => Choice::Numbered(number),
            Err(_) => Choice::Named(word.to_string()),
        }
    }

    /// What `--only` was given, if it was.
    pub fn which(&self) -> Option<String> {
        match self {
            Choice::Numbered(number) => Some(number.to_string()),
            Choice::Named(text) => Some(text.clone()),
            Choice::Spread | Choice::All => None,
        }
    }

    pub fn of<'a>(&self, mutants: &'a [Mutant]) -> Vec<(usize, &'a Mutant)> {
        let mut seen = HashMap::new();
        let mut in_turn = |mutant: &Mutant| {
            let count = seen
                .entry((mutant.library.clone(), mutant.kind.name))
                .or_insert(0);
            *count += 1;
            (*count - 1) % mutant.kind.step == 0
        };
        let mut chosen = |number: usize, mutant: &Mutant| match self {
            Choice::Spread => in_turn(mutant),
            Choice::All => true,
            Choice::Numbered(wanted) => number == *wanted,
            Choice::Named(text) => mutant.name().contains(text),
        };
        let numbered = (1..).zip(mutants);
        numbered
            .filter(|(number, mutant)| chosen(*number, mutant))
            .collect()
    }
}
