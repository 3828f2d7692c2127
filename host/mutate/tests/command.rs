//! What the arguments ask for, and which mutants they choose.

mod common;

use common::mutants_in;
use mutate::choice::{without_code, Choice};
use mutate::command::{request, Request};

fn asked(words: &[&str]) -> Result<Request, String> {
    let words: Vec<String> = words.iter().map(|word| word.to_string()).collect();
    request(&words)
}

const SAMPLE: &str = "fn sample(x: u8) -> bool\n{\n    x == 1\n}\n";

fn names(choice: Choice) -> Vec<String> {
    let mutants = mutants_in(SAMPLE);
    let chosen = choice.of(&mutants);
    chosen
        .iter()
        .map(|(number, mutant)| format!("{number} {}", mutant.name()))
        .collect()
}

#[test]
fn without_arguments_all_crates_are_sampled() {
    let request = asked(&[]).unwrap();
    assert_eq!(
        (
            request.crates.len(),
            request.choice,
            request.list,
            request.jobs
        ),
        (0, Choice::Spread, false, None)
    );
}

#[test]
fn options_and_crates_may_be_mixed() {
    let request = asked(&["lag", "--jobs", "3", "--all", "params", "--list"]).unwrap();
    assert_eq!(request.crates, ["lag", "params"]);
    assert_eq!(
        (request.choice, request.list, request.jobs),
        (Choice::All, true, Some(3))
    );
    assert_eq!(asked(&["--only", "7"]).unwrap().choice, Choice::Numbered(7));
}

#[test]
fn wrong_arguments_are_named() {
    for (wrong, said) in [
        (&["--jobs"][..], "--jobs needs a number N"),
        (&["--jobs", "0"], "N has to be a number from 1 on, not '0'"),
        (&["--jobs", "x"], "N has to be a number from 1 on, not 'x'"),
        (&["--only"], "--only needs a number or a text"),
        (&["--every"], "there is no option '--every'"),
        (
            &["--all", "--only", "1"],
            "at most one of --all and --only is allowed",
        ),
        (
            &["--only", "1", "--only", "2"],
            "at most one of --all and --only is allowed",
        ),
    ] {
        assert_eq!(asked(wrong), Err(said.to_string()));
    }
}

#[test]
fn all_are_numbered_in_the_order_of_their_places() {
    let expected = [
        "1 sample/src/lib.rt:2 sample return: { -> { return false;",
        "2 sample/src/lib.rt:2 sample return: { -> { return true;",
        "3 sample/src/lib.rt:3 sample comparison: x == 1 -> x != 1",
        "4 sample/src/lib.rt:3 sample constant: x == 1 -> x == 2",
        "5 sample/src/lib.rt:3 sample constant: x == 1 -> x == 0",
    ];
    assert_eq!(names(Choice::All), expected);
}

#[test]
fn a_spread_has_the_first_of_each_kind() {
    let expected = [
        "1 sample/src/lib.rt:2 sample return: { -> { return false;",
        "3 sample/src/lib.rt:3 sample comparison: x == 1 -> x != 1",
        "4 sample/src/lib.rt:3 sample constant: x == 1 -> x == 2",
    ];
    assert_eq!(names(Choice::Spread), expected);
}

#[test]
fn one_is_chosen_by_its_number_or_by_its_name() {
    let second = ["2 sample/src/lib.rt:2 sample return: { -> { return true;"];
    assert_eq!(names(Choice::only("2")), second);
    assert_eq!(names(Choice::only("return true")), second);
    for which in ["2", "return true"] {
        assert_eq!(Choice::only(which).which().as_deref(), Some(which));
    }
    assert_eq!((Choice::All.which(), Choice::Spread.which()), (None, None));
}

#[test]
fn crates_without_code_are_found() {
    let crates = ["sample", "empty", "bare"].map(String::from);
    let mutants = mutants_in(SAMPLE);
    assert_eq!(without_code(&crates, &mutants), ["empty", "bare"]);
    assert!(without_code(&crates[..1], &mutants).is_empty());
}

#[test]
fn mutants_that_read_the_same_are_numbered() {
    let mutants = mutants_in("fn sample()\n{\n    f(x);\n    f(x);\n}\n");
    let names: Vec<_> = mutants.iter().map(|mutant| mutant.lasting_name()).collect();
    let expected = [
        "sample/src/lib.rt sample return: { -> { return;",
        "sample/src/lib.rt sample dropped: f(x); -> nothing",
        "sample/src/lib.rt sample dropped: f(x); -> nothing (2)",
    ];
    assert_eq!(names, expected);
}
