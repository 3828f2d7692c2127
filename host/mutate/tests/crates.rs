//! The mutants of the repository's own crates.

use std::collections::{HashMap, HashSet};
use std::fs;

use mutate::choice::Choice;
use mutate::equivalents;
use mutate::kinds::refusals::TABLE;
use mutate::mutant::{mutants, Mutant};
use mutate::report::unmatched;
use mutate::repository::{libraries, root};

/// There are some, so that what is asked of each is asked.
fn all() -> Vec<Mutant> {
    let libraries = libraries(&root()).unwrap();
    let all: Vec<_> = libraries
        .iter()
        .flat_map(|library| mutants(&root(), library).unwrap())
        .collect();
    assert!(!all.is_empty());
    all
}

fn source_of(mutant: &Mutant) -> String {
    fs::read_to_string(root().join("crates").join(&mutant.file)).unwrap()
}

/// The lines that no mutant may touch: comments, attributes, declarations, and contracts to the brace of the body.
fn kept(text: &str) -> Vec<&str> {
    let marks = [
        "//",
        "#",
        "ghost ",
        "use ",
        "impl",
        "pub struct ",
        "pub enum ",
    ];
    let mut in_contract = false;
    let mut kept = Vec::new();
    for line in text.lines() {
        let starts = |mark: &&str| line.trim_start().starts_with(mark);
        in_contract = ["requires ", "ensures "].iter().any(starts)
            || in_contract && !line.trim_start().starts_with('{');
        if in_contract || marks.iter().any(starts) {
            kept.push(line);
        }
    }
    kept
}

/// The names of the crate `rules` by their numbers.
fn refusals_by_number() -> HashMap<String, String> {
    let source = fs::read_to_string(root().join("crates/rules/src/lib.rt")).unwrap();
    let (_, rest) = source.split_once("pub enum Refusal {").unwrap();
    let (body, _) = rest.split_once('}').unwrap();
    let named = body.split(',').filter_map(|item| item.split_once('='));
    named
        .map(|(name, number)| (number.trim().to_string(), name.trim().to_string()))
        .collect()
}

/// The numbers of the table of RULES 9.1, row by row.
fn numbers_of_table() -> Vec<String> {
    let rules = fs::read_to_string(root().join("docs/RULES.md")).unwrap();
    let section = rules
        .lines()
        .skip_while(|line| !line.starts_with("### 9.1 "));
    let section = section.take_while(|line| !line.starts_with("### 9.2 "));
    let cells = section.filter_map(|line| line.strip_prefix("| ")?.split(" |").next());
    cells
        .filter(|cell| cell.parse::<u8>().is_ok())
        .map(String::from)
        .collect()
}

fn one_line(text: &str) -> String {
    text.split_whitespace().collect::<Vec<_>>().join(" ")
}

#[test]
fn there_are_three_hundred_and_more() {
    let mutants = all();
    assert!(Choice::Spread.of(&mutants).len() >= 300);
}

#[test]
fn every_crate_with_a_function_has_mutants() {
    let mutants = all();
    for library in libraries(&root()).unwrap() {
        let folder = root().join("crates").join(&library).join("src");
        let files = fs::read_dir(folder)
            .unwrap()
            .map(|entry| entry.unwrap().path());
        let functions = files.map(|file| fs::read_to_string(file).unwrap().matches("fn ").count());
        let has_mutants = mutants.iter().any(|mutant| mutant.library == library);
        assert_eq!(has_mutants, functions.sum::<usize>() > 0, "{library}");
    }
}

#[test]
fn names_are_unique() {
    let mutants = all();
    let names: HashSet<_> = mutants.iter().map(Mutant::name).collect();
    let lasting: HashSet<_> = mutants.iter().map(Mutant::lasting_name).collect();
    assert_eq!((names.len(), lasting.len()), (mutants.len(), mutants.len()));
}

#[test]
fn a_mutant_differs_from_its_source_in_the_place_that_it_names() {
    for mutant in all() {
        let source = source_of(&mutant);
        let mutated = mutant.edit.apply(&source);
        let (old, new) = mutant.edit.lines(&source);
        let above = mutant.line - 1;
        let split = |text: &str| -> (Vec<String>, String) {
            let above_it = text.lines().take(above).map(String::from).collect();
            (
                above_it,
                one_line(&text.lines().skip(above).collect::<Vec<_>>().join("\n")),
            )
        };
        let ((above_source, below_source), (above_mutated, below_mutated)) =
            (split(&source), split(&mutated));
        assert_eq!(above_source, above_mutated, "{}", mutant.name());
        let rest = below_source
            .strip_prefix(&old)
            .expect("the source has the old lines there");
        let rest_mutated = below_mutated
            .strip_prefix(&new)
            .expect("the mutant has the new lines there");
        assert_eq!(
            rest.trim_start(),
            rest_mutated.trim_start(),
            "{}",
            mutant.name()
        );
        assert_ne!(one_line(&source), one_line(&mutated), "{}", mutant.name());
    }
}

#[test]
fn comments_contracts_and_declarations_stay() {
    for mutant in all() {
        let source = source_of(&mutant);
        let kept_of_source = kept(&source);
        assert!(!kept_of_source.is_empty(), "{}", mutant.file);
        assert_eq!(
            kept(&mutant.edit.apply(&source)),
            kept_of_source,
            "{}",
            mutant.name()
        );
    }
}

#[test]
fn refusals_have_the_crates_names_in_the_order_of_the_rules() {
    let names = refusals_by_number();
    let numbers = numbers_of_table();
    let ordered: Vec<&str> = numbers
        .iter()
        .map(|number| names[number].as_str())
        .collect();
    assert_eq!(ordered, TABLE);
    assert_eq!(names.len(), TABLE.len());
}

#[test]
fn every_mutant_that_is_listed_as_equivalent_exists() {
    let document = fs::read_to_string(root().join("docs/MUTATION.md")).unwrap();
    let equivalents = equivalents::parse(&document).unwrap();
    assert!(!equivalents.is_empty());
    assert_eq!(unmatched(&equivalents, &[], &all()), Vec::<&str>::new());
}

#[test]
fn every_kind_has_its_turn_in_the_choice() {
    let mutants = all();
    let kinds = |choice: Choice| -> HashSet<&str> {
        choice
            .of(&mutants)
            .iter()
            .map(|(_, mutant)| mutant.kind.name)
            .collect()
    };
    assert_eq!(kinds(Choice::Spread).len(), 11);
    assert_eq!(kinds(Choice::All), kinds(Choice::Spread));
}
