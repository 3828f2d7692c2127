//! `.ci/run` ends with the sum of what passed, and fails where a step fails or rt tells of an edit that is bad.

use gate::Copy;

const PROVED: &str = "rt: low proved
rt: ok; handles allowed: none; must-fail edits: 98 refused; every proof and must-fail edit was done in this run
117 passed, 0 failed
";

/// The gate with stand-ins for its steps, which note in which order they were asked.
fn copy(name: &str, proved: &str) -> Copy {
    let copy = Copy::of_scripts(name);
    copy.write("crates.txt", "low:\n");
    copy.write("proved", proved);
    let asked =
        |what: &str| format!("#!/bin/sh\n[ \"$1\" = build ] || echo \"{what} $*\" >>asked\n");
    copy.write_program(
        "rt",
        &(asked("rt") + "cat proved\n! grep -q FAILED proved\n"),
    );
    copy.write(".ci/contracts", &asked("contracts"));
    copy.write(
        ".ci/assumptions",
        &(asked("assumptions") + "echo 'assumed: nothing'\n"),
    );
    copy.write(
        ".ci/host-tests",
        &(asked("host-tests") + "echo 'host: 5 passed'\n"),
    );
    copy
}

#[test]
fn the_steps_in_their_order() {
    let copy = copy("run-good", PROVED);
    let ended = copy.run(".ci/run");
    ended.assert_passed();
    assert_eq!(
        ended.printed(),
        format!("{PROVED}host: 5 passed\nassumed: nothing\n122 passed, 0 failed\n")
    );
    // The last two go on side by side.
    let asked = std::fs::read_to_string(copy.path("asked")).expect("the steps were asked");
    let mut asked: Vec<_> = asked.lines().collect();
    asked[2..].sort();
    assert_eq!(
        asked,
        ["contracts ", "rt ci", "assumptions ", "host-tests "]
    );
}

const UNSURE: &str = "rt ci found edits that are bad, or did not say that all is well";

#[test]
fn a_bad_edit() {
    for bad in [
        PROVED.replace("98 refused;", "96 refused, 2 bad;"),
        PROVED.replace(
            "98 refused;",
            "97 refused, 1 of them only by a limit, 1 bad;",
        ),
        PROVED.replace("rt: ok", "rt: well"),
    ] {
        copy("run-bad-edit", &bad)
            .run(".ci/run")
            .assert_told(&[UNSURE]);
    }
}

#[test]
fn a_step_that_fails() {
    let failed = "rt: FAILED: low\n0 passed, 1 failed\n";
    copy("run-not-proved", failed)
        .run(".ci/run")
        .assert_told(&[]);
    for step in [".ci/contracts", ".ci/host-tests", ".ci/assumptions"] {
        let copy = copy("run-fails", PROVED);
        copy.append(step, "echo \"it does not hold\" >&2\nexit 1\n");
        let ended = copy.run(".ci/run");
        assert_ne!(ended.last_line(), "122 passed, 0 failed", "{step}");
        assert!(!ended.is_well(), "{step}");
    }
}

/// A step that ends well without having done its work.
#[test]
fn a_step_that_says_nothing() {
    let ended = "the gate did not end as it should";
    let proved = PROVED.replace("117 passed, 0 failed\n", "");
    copy("run-no-sum", &proved)
        .run(".ci/run")
        .assert_told(&[ended]);
    let copy = copy("run-no-host", PROVED);
    copy.write(".ci/host-tests", "#!/bin/sh\n");
    copy.run(".ci/run").assert_told(&[ended]);
}
