//! The pages of the repository: their fenced parts, and what the commands in them print.

use std::env;
use std::fs::{self, Permissions};
use std::os::unix::fs::{symlink, PermissionsExt};
use std::path::{Path, PathBuf};
use std::process::Command;

use crate::{launcher, root, scratch};

/// A fenced part of a page: what follows its first fence, and its lines.
pub struct Block {
    pub language: String,
    pub text: String,
}

impl Block {
    pub fn is(&self, language: &str) -> bool {
        self.language == language
    }
}

/// The text of a page.
pub fn page(name: &str) -> String {
    fs::read_to_string(root().join(name)).unwrap_or_else(|error| panic!("{name}: {error}"))
}

pub fn blocks(page: &str) -> Vec<Block> {
    let mut blocks = Vec::new();
    for part in page.split("\n```").skip(1).step_by(2) {
        let (language, text) = part.split_once('\n').expect("a fence is a line");
        let (language, text) = (language.to_string(), format!("{text}\n"));
        blocks.push(Block { language, text });
    }
    blocks
}

/// A folder that looks like the repository's to the commands, where they can leave files.
pub fn place(name: &str) -> PathBuf {
    let place = scratch(name);
    fs::create_dir_all(place.join("home")).expect("the folder can be made");
    let root = root().canonicalize().expect("the repository is there");
    symlink(root.join("examples"), place.join("examples")).expect("a link can be made");
    let stand_in = place.join("tsendurkho");
    let launcher = launcher().canonicalize().expect("the launcher is there");
    let script = format!("#!/bin/sh\nexec '{}' \"$@\"\n", launcher.display());
    fs::write(&stand_in, script).expect("the launcher's stand-in can be written");
    fs::set_permissions(&stand_in, Permissions::from_mode(0o755))
        .expect("it can be made a program");
    place
}

/// Where rustup keeps its compilers: below the user's HOME, unless it is told otherwise.
fn compilers() -> PathBuf {
    let home = || PathBuf::from(env::var_os("HOME").unwrap_or_default()).join(".rustup");
    env::var_os("RUSTUP_HOME").map_or_else(home, PathBuf::from)
}

/// What some commands print, run as one script that ends at the first failure.
pub fn printed(place: &Path, commands: &str) -> String {
    let output = Command::new("sh")
        .args(["-eu", "-c", commands])
        .current_dir(place)
        .env("HOME", place.join("home"))
        .env("RUSTUP_HOME", compilers())
        .output()
        .expect("sh starts");
    assert!(
        output.status.success(),
        "{commands}\n{}",
        String::from_utf8_lossy(&output.stderr)
    );
    String::from_utf8(output.stdout).expect("what is printed is text")
}
