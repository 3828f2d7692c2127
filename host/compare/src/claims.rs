//! Claims as antt reads them: one for each equation, proved by computing.

use crate::case::{Case, Equation};
use crate::definitions::Definitions;

const PREAMBLE: &str = "\
use Rattle.std.specs.Prelude.{◌≡◌, refl, true, false, [], ◌∷◌, pos, negsuc}
use Rattle.rules.specs.declared.Vote.TheVariants.{Count, None}
";

/// How many cases there are in one file.
const BATCH: usize = 25;

/// The files of a crate of claims, each with its name. The number of a case is its place.
pub fn crate_files(definitions: &Definitions, cases: &[Case]) -> Vec<(String, String)> {
    let mut files = Vec::new();
    for (batch, some) in cases.chunks(BATCH).enumerate() {
        let mut text = format!("{PREAMBLE}{}", definitions.imports);
        for (place, case) in some.iter().enumerate() {
            text += &claims(definitions, batch * BATCH + place, case);
        }
        files.push((format!("Batch{batch}.antt"), text));
    }
    let modules = (0..files.len()).map(|batch| format!("pub mod Batch{batch}\n"));
    files.push(("Lib.antt".to_string(), modules.collect()));
    files
}

fn claims(definitions: &Definitions, number: usize, case: &Case) -> String {
    let unfolded = definitions.unfolded.join(" ");
    let claim = |equation: &Equation| {
        let name = claim_name(number, &equation.about);
        let (term, value) = (&equation.term, &equation.value);
        format!("\npub {name} : {term} ≡ {value}\nunfolding {unfolded}\n{name} = refl\n")
    };
    case.equations.iter().map(claim).collect()
}

/// What the name of every claim begins with, and of nothing else.
const CASE: &str = "case";

/// The name of the claim that an equation of a case makes.
pub fn claim_name(number: usize, about: &str) -> String {
    format!("{CASE}{number}_{}", about.replace('-', "_"))
}

pub fn is_claim_name(name: &str) -> bool {
    name.starts_with(CASE)
}

/// The names of all claims of some cases.
pub fn claim_names(cases: &[Case]) -> Vec<String> {
    let mut names = Vec::new();
    for (number, case) in cases.iter().enumerate() {
        names.extend(
            case.equations
                .iter()
                .map(|one| claim_name(number, &one.about)),
        );
    }
    names
}
