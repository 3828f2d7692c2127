//! The version is in the file VERSION, and wherever else it has to be written it is the same.

use std::fs;
use std::process::Command;

use program::{launcher, root};

fn read(path: &str) -> String {
    fs::read_to_string(root().join(path)).expect(path)
}

/// What is between two texts, on the first line that has both.
fn between<'a>(text: &'a str, before: &str, after: &str) -> &'a str {
    text.lines()
        .find_map(|line| line.strip_prefix(before)?.split_once(after))
        .expect("a line of that form")
        .0
}

#[test]
fn every_crate_has_the_version() {
    let version = read("VERSION");
    let members = read("host/Cargo.toml");
    let names = between(&members, "members = [", "]").split(", ");
    for name in names.map(|quoted| quoted.trim_matches('"')) {
        let manifest = read(&format!("host/{name}/Cargo.toml"));
        assert_eq!(
            between(&manifest, "version = \"", "\""),
            version.trim_end(),
            "{name}"
        );
    }
}

#[test]
fn the_newest_entry_of_the_changelog_is_of_the_version() {
    let changelog = read("CHANGELOG.md");
    assert_eq!(between(&changelog, "## [", "]"), read("VERSION").trim_end());
}

#[test]
fn the_launcher_says_the_version() {
    let said = Command::new(launcher())
        .arg("version")
        .output()
        .expect("the launcher runs");
    assert!(said.status.success());
    assert_eq!(
        String::from_utf8_lossy(&said.stdout),
        format!("tsendurkho {}", read("VERSION"))
    );
}
