//! `.ci/assumptions` prints what a program rests on, and fails where a library rests on anything that is assumed.

use gate::Copy;

/// What the prover reports where nothing is assumed.
const PROVED: &str = "axioms libc: none reached of the 3 declared
  libc::close
  libc::read
  libc::write
logic=proved functions=3 target=x86_64-unknown-linux-gnu sum=0
";

const PROGRAM: &str = "axioms libc: 2 reached of the 3 declared
  libc::close
  libc::read    reached
  libc::write   reached
axioms os: none reached of the 1 declared
  os::c::open
logic=proved functions=6 axioms=2 target=x86_64-unknown-linux-gnu sum=0
";

/// Prints what is written for the crate. It is asked about every crate as about an archive or a program, and about all that is
/// assumed; a static library it knows as one.
const STAND_IN: &str = r#"#!/bin/sh
case ${PWD##*/} in
archive | program) wanted="check --list-axioms" ;;
*) wanted="check --list-axioms --crate-type staticlib" ;;
esac
if [ "$*" != "$wanted" ]; then
    echo "$*"
    exit 2
fi
cat said
grep -q "^logic=proved " said
"#;

/// A library, one on it, an archive and a program, with what the prover reports of each.
fn copy(name: &str) -> Copy {
    let copy = Copy::of_scripts(name);
    copy.write(
        "crates.txt",
        "# NAME: what it depends on\nlow:\nhigh: low\narchive staticlib: high\nprogram: high\n",
    );
    copy.write_program("rt", STAND_IN);
    for library in ["low", "high", "archive"] {
        copy.write(&format!("crates/{library}/src/lib.rt"), "");
        said(&copy, library, PROVED);
    }
    copy.write("crates/program/src/main.rt", "");
    said(&copy, "program", PROGRAM);
    copy
}

fn said(copy: &Copy, library: &str, text: &str) {
    copy.write(&format!("crates/{library}/said"), text);
}

fn reported(name: &str, sabotage: impl Fn(&Copy), line: &str) {
    let copy = copy(name);
    sabotage(&copy);
    copy.run(".ci/assumptions").assert_told(&[line]);
}

#[test]
fn a_program_and_its_libraries() {
    let ended = copy("good").run(".ci/assumptions");
    ended.assert_passed();
    assert_eq!(
        ended.printed(),
        "assumptions: program rests on the assumed contracts of libc::read, libc::write\nassumptions: none in 3 libraries\n"
    );
}

#[test]
fn a_library_that_reaches_an_assumed_contract() {
    for library in ["high", "archive"] {
        reported(
            "reaches",
            |copy| said(copy, library, PROGRAM),
            &format!("assumptions: {library} rests on libc::read, libc::write"),
        );
    }
}

/// A count alone is enough, and so are functions that the library declares itself.
#[test]
fn a_library_that_only_counts_or_declares() {
    for (word, found) in [
        ("axioms=1", "axioms=1"),
        ("foreign=low::write", "foreign=low::write"),
    ] {
        reported(
            "declares",
            |copy| {
                let verdict = format!("logic=proved functions=3 {word} ");
                said(
                    copy,
                    "low",
                    &PROVED.replace("logic=proved functions=3 ", &verdict),
                );
            },
            &format!("assumptions: low rests on {found}"),
        );
    }
}

#[test]
fn a_library_on_one_from_elsewhere() {
    reported(
        "not-ours",
        |copy| {
            copy.write(
                "crates.txt",
                "low: libc\nhigh: low\narchive staticlib: high\nprogram: high\n",
            )
        },
        "assumptions: low depends on libc, which is not a library of this repository",
    );
}

/// What is assumed is the kit's: a function of this repository is none of it.
#[test]
fn a_program_on_a_function_that_the_repository_declares() {
    reported(
        "own",
        |copy| said(copy, "program", &PROGRAM.replace("libc::", "low::")),
        "assumptions: program rests on low::read, which is not the kit's",
    );
}

#[test]
fn a_crate_without_a_verdict() {
    reported(
        "not-proved",
        |copy| said(copy, "low", "logic=not-proved\n"),
        "assumptions: low is not proved",
    );
    reported(
        "no-report",
        |copy| said(copy, "low", "logic=proved functions=3 sum=0\n"),
        "assumptions: there is no report on low",
    );
    reported(
        "nothing-said",
        |copy| copy.remove("crates/low/said"),
        "assumptions: low is not proved",
    );
}
