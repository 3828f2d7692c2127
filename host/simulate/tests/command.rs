//! What the program answers.

use simulate::command::{answer, request, Answer, Request};
use simulate::strategy::STRATEGIES;

fn answer_to(arguments: &[&str]) -> Answer {
    answer(&request(arguments).expect("these arguments are right"))
}

/// The words of each line of an answer without errors.
fn lines(arguments: &[&str]) -> Vec<Vec<String>> {
    let Answer { output, errors } = answer_to(arguments);
    assert_eq!(errors, "");
    let words = |line: &str| line.split_whitespace().map(String::from).collect();
    output.lines().map(words).collect()
}

#[test]
fn the_table_has_a_row_for_each_f() {
    let table = lines(&["24"]);
    assert_eq!(table[0][..5], ["f", "runs", "T(f)", "latest", "of"]);
    let bounds = ["1", "192", "446", "509", "826", "889"];
    assert_eq!(table.len(), 1 + bounds.len());
    let mut runs = 0;
    for (f, row) in table[1..].iter().enumerate() {
        assert_eq!(row[0], f.to_string());
        assert_eq!(row[2], bounds[f]);
        runs += row[1].parse::<u32>().unwrap();
    }
    assert_eq!(runs, 24);
}

#[test]
fn the_answer_is_the_same_each_time() {
    assert!(lines(&["6"]).len() > 1);
    assert_eq!(answer_to(&["6"]), answer_to(&["6"]));
}

#[test]
fn the_search_for_the_fault_reports_all_three_cooldowns() {
    let printed = lines(&["--fault", "cooldown", "8"]);
    let has_f = |line: &&Vec<String>| line.iter().take(1).any(|f| f.parse::<u32>().is_ok());
    assert_eq!(printed.iter().filter(has_f).count(), 5);
    let search = printed.concat().join(" ");
    for wanted in ["2·c1: latest", "c1: latest", "t: latest", "lies:"] {
        assert!(search.contains(wanted), "{wanted}");
    }
    assert!(search.contains("cooldown from c1: 0 runs late"));
}

#[test]
fn one_run_is_printed_with_each_cooldown() {
    let printed = lines(&["--seed", "3"]);
    assert_eq!(printed.len(), 3);
    assert!(printed
        .iter()
        .all(|line| line[..5].join(" ").ends_with("seed 3,")));
}

#[test]
fn every_strategy_is_described() {
    let printed = answer_to(&["--lies"]).output;
    for strategy in STRATEGIES {
        assert!(printed.contains(strategy.name) && printed.contains(strategy.description));
    }
}

#[test]
fn what_the_arguments_ask_for() {
    let (file, seed) = ("run.svg", Some(7));
    for (arguments, wanted) in [
        (&[][..], Request::Agreement(2_000)),
        (&["5"], Request::Agreement(5)),
        (&["--fault", "cooldown"], Request::Fault(2_000)),
        (&["5", "--fault", "cooldown"], Request::Fault(5)),
        (&["--seed", "7"], Request::OneRun(7)),
        (&["--svg", file], Request::Picture { file, seed: None }),
        (
            &["--seed", "7", "--svg", file],
            Request::Picture { file, seed },
        ),
        (&["--lies"], Request::Lies),
    ] {
        assert_eq!(request(arguments), Ok(wanted));
    }
}

#[test]
fn wrong_arguments_are_named() {
    for (wrong, said) in [
        (&["many"][..], "RUNS has to be a number, not 'many'"),
        (&["-1"], "there is no option '-1'"),
        (&["--fast"], "there is no option '--fast'"),
        (&["1", "2"], "one argument too many: '2'"),
        (&["--fault"], "--fault needs the word cooldown"),
        (
            &["--fault", "kings"],
            "the only fault is 'cooldown', not 'kings'",
        ),
        (&["--seed"], "--seed needs a SEED"),
        (&["--seed", "many"], "SEED has to be a number, not 'many'"),
        (&["--seed", "1", "--seed", "2"], "--seed is given twice"),
        (&["--svg", "."], "'.' is a directory, and a file is wanted"),
        (&["--svg"], "--svg needs a FILE"),
        (
            &["--lies", "--seed", "1"],
            "these do not go together: --lies --seed 1",
        ),
        (
            &["--svg", "run.svg", "5"],
            "these do not go together: --svg run.svg 5",
        ),
    ] {
        let line = format!("simulate: {said}; try ./tsendurkho simulate --help\n");
        assert_eq!(request(wrong), Err(line));
    }
}

/// What links the archive is apart, and starts if nothing is said here.
#[test]
fn a_picture_is_not_drawn_here() {
    assert_eq!(answer_to(&["--svg", "run.svg"]), Answer::default());
}
