//! The program `mutate`: see `command`.

use std::env;
use std::fs;
use std::io;
use std::process::ExitCode;
use std::thread;

use mutate::choice::without_code;
use mutate::command::{request, Request};
use mutate::copies::Workplace;
use mutate::ending::Ending;
use mutate::equivalents::{self, Equivalent};
use mutate::mutant::{mutants, Mutant};
use mutate::report::{line, summary, unmatched};
use mutate::repository::{libraries, root};
use mutate::run::{Outcome, Run};

/// Why there is no answer.
enum Failure {
    WrongUse(String),
    Failed(String),
}

fn main() -> ExitCode {
    let arguments: Vec<String> = env::args().skip(1).collect();
    let request = request(&arguments).map_err(Failure::WrongUse);
    match request.and_then(|request| answer(&request)) {
        Ok(true) => ExitCode::SUCCESS,
        Ok(false) => ExitCode::FAILURE,
        Err(Failure::WrongUse(message)) => {
            eprintln!("mutate: {message}; try ./tsendurkho mutate --help");
            ExitCode::from(2)
        }
        Err(Failure::Failed(message)) => {
            eprintln!("mutate: {message}");
            ExitCode::FAILURE
        }
    }
}

fn failed(error: io::Error) -> Failure {
    Failure::Failed(error.to_string())
}

/// Is every survivor listed, and is there every mutant that is listed?
fn answer(request: &Request) -> Result<bool, Failure> {
    let crates = asked(&request.crates)?;
    let mut mutants_of_all = Vec::new();
    for library in &crates {
        mutants_of_all.extend(mutants(&root(), library).map_err(failed)?);
    }
    let without_code = without_code(&request.crates, &mutants_of_all).join(", ");
    let nothing_to_edit = format!("there is nothing to edit in {without_code}");
    let chosen = request.choice.of(&mutants_of_all);
    if chosen.is_empty() {
        let which = request.choice.which();
        let unmatched = which.map(|which| format!("no edit matches --only '{which}'"));
        return Err(Failure::WrongUse(unmatched.unwrap_or(nothing_to_edit)));
    }
    if !without_code.is_empty() {
        eprintln!("mutate: {nothing_to_edit}");
    }
    if request.list {
        chosen
            .iter()
            .for_each(|(number, mutant)| println!("{number:5} {}", mutant.name()));
        return Ok(true);
    }
    let equivalents = listed()?;
    let chosen: Vec<&Mutant> = chosen.into_iter().map(|(_, mutant)| mutant).collect();
    let outcomes = tried(request, &crates, &chosen, &equivalents).map_err(failed)?;
    let unmatched = unmatched(&equivalents, &request.crates, &mutants_of_all);
    print!("{}", summary(&outcomes, &unmatched));
    let survived = outcomes
        .iter()
        .any(|outcome| outcome.ending == Ending::Unexplained);
    Ok(!survived && unmatched.is_empty())
}

/// The libraries named, or all of them.
fn asked(names: &[String]) -> Result<Vec<String>, Failure> {
    let libraries = libraries(&root()).map_err(failed)?;
    if let Some(unknown) = names.iter().find(|name| !libraries.contains(name)) {
        let message = format!("'{unknown}' is not a library in crates.txt");
        return Err(Failure::WrongUse(message));
    }
    let wanted = |library: &String| names.is_empty() || names.contains(library);
    Ok(libraries.into_iter().filter(wanted).collect())
}

fn listed() -> Result<Vec<Equivalent>, Failure> {
    let wrong = |message: String| Failure::Failed(format!("docs/MUTATION.md: {message}"));
    let document = fs::read_to_string(root().join("docs/MUTATION.md"));
    equivalents::parse(&document.map_err(|error| wrong(error.to_string()))?).map_err(wrong)
}

/// The crates one after the other: each is proved, and then its mutants are tried.
fn tried<'m>(
    request: &Request,
    crates: &[String],
    chosen: &[&'m Mutant],
    equivalents: &[Equivalent],
) -> io::Result<Vec<Outcome<'m>>> {
    let run = Run {
        place: Workplace::new(&root())?,
        jobs: request
            .jobs
            .map_or_else(|| thread::available_parallelism().map(usize::from), Ok)?,
        equivalents,
    };
    let aloud = request.choice.which().is_some();
    let report = |outcome: &Outcome| {
        if aloud {
            print!("{}", outcome.printed);
        }
        print!("{}", line(outcome));
    };
    let mut outcomes = Vec::new();
    for library in crates {
        let mutants: Vec<&Mutant> = chosen
            .iter()
            .copied()
            .filter(|mutant| mutant.library == *library)
            .collect();
        if !mutants.is_empty() {
            println!("{library}: {} mutants", mutants.len());
            outcomes.extend(run.of_crate(library, &mutants, report)?);
        }
    }
    Ok(outcomes)
}
