//! The throw-away crate's text, and what the prover says of it.

use std::collections::BTreeSet;

use compare::case::Case;
use compare::claims::{claim_names, crate_files};
use compare::command::root;
use compare::definitions::Definitions;
use compare::kinds::{draw, KINDS};
use compare::prover::{refused_claims, Refused};
use compare::report::{differences, figures};
use compare::value::Value;

fn definitions() -> Definitions {
    Definitions::read(&root().join("crates/rules/specs")).expect("the rules can be read")
}

fn lag(value: i64) -> Case {
    let term = "lag_answer 8 1 7".to_string();
    Case::new("1 against 7".to_string()).says("lag", term, Value::Integer(value))
}

#[test]
fn the_definitions_are_read_from_the_rules() {
    let Definitions { imports, unfolded } = definitions();
    assert!(imports.contains("use Rattle.rules.specs.Lag.{ahead, nearest, lag_of}\n"));
    assert!(unfolded.contains(&"lag_of".to_string()));
    assert!(!unfolded.contains(&"ahead".to_string()));
    let names: BTreeSet<&String> = unfolded.iter().collect();
    assert_eq!(names.len(), unfolded.len());
}

#[test]
fn one_name_is_one_definition() {
    let imports = definitions().imports;
    let names: Vec<&str> = imports
        .lines()
        .filter_map(|line| line.split_once('{')?.1.strip_suffix('}'))
        .flat_map(|names| names.split(", "))
        .collect();
    assert!(names.len() > 100);
    let distinct: BTreeSet<&str> = names.iter().copied().collect();
    assert_eq!(distinct.len(), names.len());
}

#[test]
fn every_term_is_of_a_definition() {
    let imports = definitions().imports;
    let known: BTreeSet<&str> = imports.split(&[' ', ',', '{', '}'][..]).collect();
    let cases = draw(2 * KINDS.len(), 3);
    let equations: Vec<_> = cases.iter().flat_map(|case| &case.equations).collect();
    assert!(equations.len() >= 2 * KINDS.len());
    for equation in equations {
        let definition = equation.term.split(' ').next().unwrap();
        assert!(known.contains(definition), "{definition}");
    }
}

#[test]
fn each_equation_is_a_claim_in_a_file_that_is_listed() {
    let cases: Vec<Case> = (0..30).map(lag).collect();
    let files = crate_files(&definitions(), &cases);
    let (lib, batches) = files.split_last().unwrap();
    let wanted = (
        "Lib.antt".to_string(),
        "pub mod Batch0\npub mod Batch1\n".to_string(),
    );
    assert_eq!(lib, &wanted);
    assert_eq!(
        [&batches[0].0, &batches[1].0],
        ["Batch0.antt", "Batch1.antt"]
    );
    let text = batches
        .iter()
        .map(|(_, text)| text.as_str())
        .collect::<String>();
    let names = claim_names(&cases);
    assert_eq!(names.len(), cases.len());
    for (value, name) in names.iter().enumerate() {
        assert!(text.contains(&format!("\npub {name} : lag_answer 8 1 7 ≡ pos {value}\n")));
        assert!(text.contains(&format!("\n{name} = refl\n")));
    }
}

/// What the prover prints where the second of three claims is wrong.
const SAID: &str = "\
rt: chose --jobs 2 for cases
./specs/Batch0.antt:18:13: error: `case1_lag`: expected type `lag_answer 8 1 7 ≡ pos 3`, but this has another
  computed as far as they go, the two types are ..
./specs/Batch0.antt:16:5: note: a trial run of this declaration was refused too. (in `case1_lag`)
logic=not-proved
";

#[test]
fn a_refused_claim_is_reported_with_its_inputs() {
    let refused = refused_claims(SAID);
    assert_eq!(refused.keys().collect::<Vec<_>>(), ["case1_lag"]);
    let report = differences(&[lag(2), lag(3), lag(2)], &refused);
    let wanted = "case 1, the halves of a group: lag\n\
                  inputs: 1 against 7\n\
                  definition: lag_answer 8 1 7\n\
                  second implementation: pos 3\n\
                  ./specs/Batch0.antt:18:13: error: ";
    assert!(report.starts_with(wanted), "{report}");
    assert!(report.contains("\n  computed as far as they go"));
    assert!(!report.contains("trial run") && !report.contains("logic=not-proved"));
    assert!(report.ends_with("compare: equations that do not hold: 1\n"));
}

#[test]
fn another_error_is_not_a_refused_claim() {
    let said = "Batch0.antt:8:1: error: `lag_of`: there is no such name\n";
    assert_eq!(refused_claims(said), Refused::new());
}

#[test]
fn wrong_values_that_are_not_refused_are_an_error() {
    let (cases, wrong) = ([lag(2), lag(2)], [lag(3), lag(3)]);
    let mut refused = refused_claims(SAID);
    let report = figures(&cases, &wrong, &refused).unwrap_err();
    assert_eq!(
        report,
        "compare: wrong values are not refused: [\"case0_lag\"]\n"
    );
    refused.insert("case0_lag".to_string(), String::new());
    let report = figures(&cases, &wrong, &refused).unwrap();
    assert!(report.starts_with("compare: 2 cases, 2 equations, all as the definitions compute\n"));
}
