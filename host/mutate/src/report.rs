//! What is printed of a run.

use std::collections::HashSet;

use crate::ending::Ending;
use crate::equivalents::Equivalent;
use crate::mutant::Mutant;
use crate::run::Outcome;

/// One mutant that has ended.
pub fn line(outcome: &Outcome) -> String {
    let (word, seconds) = (outcome.ending.word(), outcome.took.as_secs_f64());
    format!("{word:<13} {seconds:5.1} s  {}\n", outcome.mutant.name())
}

/// The figures, and what has to be looked at.
pub fn summary(outcomes: &[Outcome], unmatched: &[&str]) -> String {
    let with = |wanted: Ending| -> Vec<String> {
        let found = outcomes.iter().filter(|outcome| outcome.ending == wanted);
        found.map(|outcome| outcome.mutant.lasting_name()).collect()
    };
    let unmatched: Vec<String> = unmatched.iter().map(|name| name.to_string()).collect();
    [
        "\n".to_string(),
        table(outcomes),
        section("No verdict:", &with(Ending::NoVerdict)),
        section(
            "Survived, and not listed as equivalent:",
            &with(Ending::Unexplained),
        ),
        section("Listed as equivalent, and no mutant:", &unmatched),
    ]
    .concat()
}

fn section(heading: &str, names: &[String]) -> String {
    if names.is_empty() {
        return String::new();
    }
    format!("\n{heading}\n  {}\n", names.join("\n  "))
}

const HEAD: &str = "\
| crate | mutants | refused | equivalent | no verdict | unexplained | not a program |
|---|---|---|---|---|---|---|
";

/// A row for each crate, and one for all of them.
fn table(outcomes: &[Outcome]) -> String {
    let library = |outcome: &Outcome| outcome.mutant.library.clone();
    let mut libraries: Vec<String> = outcomes.iter().map(library).collect();
    libraries.dedup();
    let mut text = HEAD.to_string();
    for name in libraries {
        text += &row(
            &name,
            outcomes.iter().filter(|outcome| library(outcome) == name),
        );
    }
    text + &row("all", outcomes.iter())
}

/// What is not a program is not a mutant.
fn row<'a>(name: &str, outcomes: impl Iterator<Item = &'a Outcome<'a>>) -> String {
    let endings: Vec<Ending> = outcomes.map(|outcome| outcome.ending).collect();
    let count = |wanted: Ending| endings.iter().filter(|ending| **ending == wanted).count();
    let not_programs = count(Ending::NotAProgram);
    let counts = [
        endings.len() - not_programs,
        count(Ending::Refused),
        count(Ending::Equivalent),
        count(Ending::NoVerdict),
        count(Ending::Unexplained),
        not_programs,
    ];
    let counts = counts.map(|count| count.to_string()).join(" | ");
    format!("| {name} | {counts} |\n")
}

/// The listed names of the crates, of all where none is named, that no mutant has.
pub fn unmatched<'a>(
    equivalents: &'a [Equivalent],
    crates: &[String],
    mutants: &[Mutant],
) -> Vec<&'a str> {
    let known: HashSet<String> = mutants.iter().map(Mutant::lasting_name).collect();
    let of_crate = |name: &str| {
        crates
            .iter()
            .any(|library| name.starts_with(&format!("{library}/")))
    };
    let listed = equivalents.iter().map(|listed| listed.name.as_str());
    let asked = listed.filter(|name| crates.is_empty() || of_crate(name));
    asked.filter(|name| !known.contains(*name)).collect()
}
