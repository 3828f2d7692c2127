//! Verdicts, the list of equivalents, and the figures.

mod common;

use std::time::Duration;

use common::mutants_in;
use mutate::ending::Ending;
use mutate::equivalents::{parse, Equivalent};
use mutate::mutant::Mutant;
use mutate::prover::{verdict, Verdict};
use mutate::report::{summary, unmatched};
use mutate::run::Outcome;

const SAMPLE: &str = "fn sample(x: u8) -> bool\n{\n    x == 0\n}\n";

const COMPARISON: &str = "sample/src/lib.rt sample comparison: x == 0 -> x != 0";

fn listed(name: &str) -> Vec<Equivalent> {
    parse(&format!(
        "# Mutants\n\n## Equivalent mutants\n\n- `{name}`\n  It is the same.\n"
    ))
    .unwrap()
}

#[test]
fn the_verdict_goes_by_the_status_and_the_last_line() {
    assert_eq!(
        verdict(Some(0), "fn f: proved\nlogic=proved functions=1\n"),
        Verdict::Survived
    );
    assert_eq!(
        verdict(Some(1), "p: error: no\nlogic=not-proved\n"),
        Verdict::Refused
    );
    assert_eq!(
        verdict(Some(1), "lib.rt:3:8: error[mismatched-types]: expected\n"),
        Verdict::NotAProgram
    );
    for (status, printed) in [
        (Some(3), "logic=not-proved\n"),
        (Some(124), ""),
        (None, ""),
        (Some(1), "rt: FAILED\n"),
        (Some(0), ""),
    ] {
        assert_eq!(verdict(status, printed), Verdict::NoVerdict);
    }
}

#[test]
fn an_item_of_the_list_is_a_name_and_a_reason() {
    let text = "- `outside`\n  of it\n\n## Equivalent mutants\n\nWhy.\n\n\
                - `a -> b`\n  They are\n  the same.\n\n## More\n- `c`\n  d\n";
    let expected = Equivalent {
        name: "a -> b".to_string(),
        reason: "They are the same.".to_string(),
    };
    assert_eq!(parse(text), Ok(vec![expected]));
}

#[test]
fn an_item_without_a_reason_or_twice_is_an_error() {
    let list = |items: &str| parse(&format!("## Equivalent mutants\n\n{items}"));
    assert!(list("- `a`\n- `b`\n  c\n").unwrap_err().contains('a'));
    assert!(list("- `b`\n  c\n- `b`\n  d\n")
        .unwrap_err()
        .contains("twice"));
}

#[test]
fn a_survivor_is_equivalent_only_where_it_is_listed() {
    let mutants = mutants_in(SAMPLE);
    let comparison = mutants
        .iter()
        .find(|mutant| mutant.lasting_name() == COMPARISON)
        .unwrap();
    let ending = |verdict, name| Ending::of(verdict, comparison, &listed(name));
    assert_eq!(ending(Verdict::Survived, COMPARISON), Ending::Equivalent);
    assert_eq!(ending(Verdict::Survived, "another"), Ending::Unexplained);
    assert_eq!(ending(Verdict::Refused, COMPARISON), Ending::Refused);
}

#[test]
fn listed_mutants_that_do_not_exist_are_found() {
    let mutants = mutants_in(SAMPLE);
    let gone = "sample/src/lib.rt sample comparison: y == 0 -> y != 0";
    let found = |name: &str, crates: &[&str]| {
        let crates: Vec<String> = crates.iter().map(|name| name.to_string()).collect();
        unmatched(&listed(name), &crates, &mutants).len()
    };
    assert_eq!(found(COMPARISON, &[]), 0);
    assert_eq!(found(COMPARISON, &["sample"]), 0);
    assert_eq!(found(gone, &[]), 1);
    assert_eq!(found(gone, &["sample"]), 1);
    assert_eq!(found(gone, &["other"]), 0);
}

fn outcome(mutant: &Mutant, ending: Ending) -> Outcome<'_> {
    Outcome {
        mutant,
        ending,
        printed: String::new(),
        took: Duration::ZERO,
    }
}

#[test]
fn what_is_not_a_program_does_not_count_as_a_mutant() {
    let mutants = mutants_in(SAMPLE);
    let endings = [
        Ending::Refused,
        Ending::NotAProgram,
        Ending::Unexplained,
        Ending::Refused,
    ];
    let outcomes: Vec<_> = mutants
        .iter()
        .zip(endings)
        .map(|(mutant, ending)| outcome(mutant, ending))
        .collect();
    let text = summary(&outcomes, &["gone"]);
    assert!(text.contains("| sample | 3 | 2 | 0 | 0 | 1 | 1 |\n| all | 3 | 2 | 0 | 0 | 1 | 1 |\n"));
    let survivor = mutants[2].lasting_name();
    assert!(text.contains(&format!(
        "Survived, and not listed as equivalent:\n  {survivor}\n"
    )));
    assert!(text.contains("Listed as equivalent, and no mutant:\n  gone\n"));
    assert!(!text.contains("No verdict:"));
}
