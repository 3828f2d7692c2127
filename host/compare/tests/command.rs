//! What the arguments ask for.

use compare::command::request;

#[test]
fn what_is_missing_has_a_value() {
    assert_eq!(request(&[]), Ok((440, 1)));
    assert_eq!(request(&["3"]), Ok((3, 1)));
    assert_eq!(request(&["3", "7"]), Ok((3, 7)));
}

#[test]
fn wrong_arguments_are_named() {
    for (wrong, said) in [
        (
            &["many"][..],
            "CASES has to be a number from 1 on, not 'many'",
        ),
        (&["0"], "CASES has to be a number from 1 on, not '0'"),
        (&["3", "many"], "SEED has to be a number, not 'many'"),
        (&["3", "7", "9"], "one argument too many: '9'"),
        (&["3", "--fast"], "there is no option '--fast'"),
    ] {
        let line = format!("compare: {said}; try ./tsendurkho compare --help\n");
        assert_eq!(request(wrong), Err(line));
    }
}
