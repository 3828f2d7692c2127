//! What the program answers.

use std::fs;
use std::path::Path;

use picture::command::{answer, Failure, DRAWN};
use picture::picture;

#[test]
fn the_picture_is_written_and_its_run_described() {
    let file = Path::new(env!("CARGO_TARGET_TMPDIR")).join("run.svg");
    let name = file.to_str().unwrap();
    for (arguments, seed) in [
        (&["--svg", name][..], DRAWN),
        (&["--svg", name, "--seed", "406"], 406),
    ] {
        let line = answer(arguments).unwrap();
        assert!(line.starts_with(&format!("seed {seed}, ")), "{line}");
        assert!(fs::read_to_string(&file).unwrap() == picture(seed));
    }
}

#[test]
fn a_picture_that_cannot_be_written_is_a_failure() {
    // A file is not a folder.
    let file = Path::new(env!("CARGO_TARGET_TMPDIR")).join("no-folder");
    fs::write(&file, "").unwrap();
    let inside = file.join("run.svg");
    let wanted = format!("simulate: '{}' cannot be written: ", inside.display());
    match answer(&["--svg", inside.to_str().unwrap()]) {
        Err(Failure::NotWritten(text)) => assert!(text.starts_with(&wanted), "{text}"),
        other => panic!("{other:?}"),
    }
}

#[test]
fn wrong_arguments_are_named() {
    let folder = env!("CARGO_TARGET_TMPDIR");
    let directory = format!("'{folder}' is a directory, and a file is wanted");
    for (wrong, said) in [
        (&[][..], "--svg FILE is missing"),
        (&["--svg"], "--svg needs a FILE"),
        (&["--svg", folder], &directory),
        (&["--svg", "/dev/null", "--seed"], "--seed needs a SEED"),
        (
            &["--svg", "/dev/null", "--seed", "many"],
            "SEED has to be a number, not 'many'",
        ),
    ] {
        let text = format!("simulate: {said}; try ./tsendurkho simulate --help\n");
        assert_eq!(answer(wrong), Err(Failure::WrongUse(text)));
    }
}
