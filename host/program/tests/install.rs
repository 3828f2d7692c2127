//! `install` records what it puts below a PREFIX, and `uninstall` removes what is recorded and nothing else.

use std::fs;
use std::os::unix::fs::symlink;
use std::path::{Path, PathBuf};
use std::process::{Command, Output};

use program::{launched, launcher, parts, root, scratch, word};

const RECORD: &str = "lib/pkgconfig/tsendurkho.pc";

fn done(words: &[&str]) {
    let (output, errors, code) = parts(&launched(words));
    assert_eq!(
        (output.as_str(), code),
        ("", Some(0)),
        "{words:?}: {errors}"
    );
}

/// All files and folders below a folder, by their paths from there.
fn contents(folder: &Path) -> Vec<PathBuf> {
    let mut found = Vec::new();
    let mut left = vec![folder.to_path_buf()];
    while let Some(next) = left.pop() {
        for entry in fs::read_dir(next).expect("a folder") {
            let path = entry.expect("a name").path();
            found.push(path.strip_prefix(folder).expect("below it").to_path_buf());
            if path.is_dir() {
                left.push(path);
            }
        }
    }
    found.sort();
    found
}

fn paths(names: &[&str]) -> Vec<PathBuf> {
    let mut paths: Vec<_> = names.iter().map(PathBuf::from).collect();
    paths.sort();
    paths
}

const INSTALLED: [&str; 8] = [
    "bin",
    "bin/blockrun",
    "include",
    "include/tsendurkho.h",
    "lib",
    "lib/libtsendurkho.a",
    "lib/pkgconfig",
    RECORD,
];

#[test]
fn what_is_installed_is_removed() {
    let place = scratch("install");
    for _ in 0..2 {
        done(&["install", word(&place)]);
        assert_eq!(contents(&place), paths(&INSTALLED));
    }
    for (put, from) in [
        ("bin/blockrun", "target/bin/blockrun"),
        ("include/tsendurkho.h", "include/tsendurkho.h"),
        ("lib/libtsendurkho.a", "target/staticlib/libtsendurkho.a"),
    ] {
        assert!(
            fs::read(place.join(put)).unwrap() == fs::read(root().join(from)).unwrap(),
            "{put}"
        );
    }
    done(&["uninstall", word(&place)]);
    assert_eq!(contents(&place), paths(&[]));
}

/// Files that others have put there stay, and so do their folders; of those the install made, the ones that are then not
/// empty.
#[test]
fn what_is_not_recorded_stays() {
    let place = scratch("install-beside");
    fs::create_dir(place.join("lib")).expect("a folder can be made");
    let theirs = ["lib/libother.a", "include/other.h"];
    fs::write(place.join(theirs[0]), "theirs").expect("a file can be written");
    done(&["install", word(&place)]);
    fs::write(place.join(theirs[1]), "theirs").expect("a file can be written");
    done(&["install", word(&place)]);
    done(&["uninstall", word(&place)]);
    assert_eq!(
        contents(&place),
        paths(&["lib", theirs[0], "include", theirs[1]])
    );
}

/// How `uninstall` fails, and that it leaves everything as it is.
fn nothing_is_removed(place: &Path, said: &str) {
    let before = contents(place);
    let ended = launched(&["uninstall", word(place)]);
    assert_eq!(
        parts(&ended),
        (String::new(), format!("tsendurkho: {said}\n"), Some(1))
    );
    assert_eq!(contents(place), before);
}

#[test]
fn without_a_record_nothing_is_removed() {
    let place = scratch("install-no-record");
    let said = format!(
        "no install is recorded in '{}', so nothing is removed",
        place.join(RECORD).display()
    );
    nothing_is_removed(&place, &said);
    // Files of the same names that no install put there.
    done(&["install", word(&place)]);
    fs::remove_file(place.join(RECORD)).expect("the record is there");
    nothing_is_removed(&place, &said);
    // An older install recorded only its folders.
    fs::write(
        place.join(RECORD),
        "# folders made by install: lib include bin\n",
    )
    .expect("a record");
    nothing_is_removed(&place, &said);
    nothing_is_installed(&place, &place.join("bin/blockrun"));
}

/// In the place of any of those that are installed. A link that leads nowhere counts too.
#[test]
fn somebody_elses_file_is_not_replaced() {
    let place = scratch("install-theirs");
    for name in [
        "bin/blockrun",
        "include/tsendurkho.h",
        "lib/libtsendurkho.a",
        RECORD,
    ] {
        let inner = place.join(name.replace('/', "-"));
        let theirs = inner.join(name);
        fs::create_dir_all(theirs.parent().expect("a folder")).expect("folders can be made");
        symlink("nowhere", &theirs).expect("a link can be made");
        nothing_is_installed(&inner, &theirs);
        fs::remove_file(&theirs).expect("the link is there");
        fs::write(&theirs, "theirs").expect("a file can be written");
        nothing_is_installed(&inner, &theirs);
        assert_eq!(fs::read(&theirs).expect("it is there"), b"theirs");
    }
}

fn nothing_is_installed(place: &Path, theirs: &Path) {
    let before = contents(place);
    let said = format!(
        "tsendurkho: '{}' is there, and install did not put it there, so nothing is installed\n",
        theirs.display()
    );
    let ended = launched(&["install", word(place)]);
    assert_eq!(parts(&ended), (String::new(), said, Some(1)));
    assert_eq!(contents(place), before);
}

#[test]
fn a_damaged_record_removes_nothing() {
    let place = scratch("install-damaged");
    let inner = place.join("prefix");
    let said = format!(
        "the record '{}' is damaged, so nothing is removed",
        inner.join(RECORD).display()
    );
    fs::write(place.join("theirs"), "theirs").expect("a file can be written");
    for file in [
        "../theirs",
        "/etc/hostname",
        "lib/*",
        "lib/pkgconfig/../../../theirs",
    ] {
        fs::create_dir_all(inner.join("lib/pkgconfig")).expect("folders can be made");
        fs::write(
            inner.join(RECORD),
            format!("# files put by install: {file} {RECORD}\n"),
        )
        .expect("a record");
        nothing_is_removed(&inner, &said);
    }
    assert!(place.join("theirs").exists());
}

/// A file that an older version put there, and that this one does not have, goes with the others.
#[test]
fn files_of_an_older_version() {
    let place = scratch("install-older");
    fs::create_dir_all(place.join("lib/pkgconfig")).expect("folders can be made");
    fs::write(place.join("lib/old.a"), "old").expect("a file can be written");
    let record = format!("# files put by install: lib/old.a {RECORD}\n# folders made by install: lib/pkgconfig lib\n");
    fs::write(place.join(RECORD), record).expect("a record");
    done(&["install", word(&place)]);
    done(&["uninstall", word(&place)]);
    assert_eq!(contents(&place), paths(&[]));
}

/// The record is written first, so it names files that are not there yet.
#[test]
fn an_interrupted_install_is_completed() {
    let place = scratch("install-interrupted");
    done(&["install", word(&place)]);
    fs::remove_file(place.join("lib/libtsendurkho.a")).expect("the archive is there");
    done(&["install", word(&place)]);
    assert_eq!(contents(&place), paths(&INSTALLED));
}

fn with_destination(stage: &Path, words: &[&str]) -> Output {
    let mut command = Command::new(launcher());
    command
        .args(words)
        .env("DESTDIR", stage)
        .output()
        .expect("the launcher starts")
}

#[test]
fn below_another_root() {
    let stage = scratch("install-stage");
    let prefix = stage.join("opt");
    let place = PathBuf::from(format!("{}{}", stage.display(), prefix.display()));
    assert!(with_destination(&stage, &["install", word(&prefix)])
        .status
        .success());
    assert_eq!(contents(&place), paths(&INSTALLED));
    let record = fs::read_to_string(place.join(RECORD)).expect("the record");
    assert!(
        record.contains(&format!("\nprefix={}\n", prefix.display())),
        "{record}"
    );
    assert!(!prefix.exists());
    assert!(with_destination(&stage, &["uninstall", word(&prefix)])
        .status
        .success());
    assert_eq!(contents(&place), paths(&[]));
}
