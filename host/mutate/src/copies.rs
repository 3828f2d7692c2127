//! Throw-away copies of the repository, so that no mutant touches its files.

use std::env;
use std::fs;
use std::io;
use std::path::{Path, PathBuf};
use std::process;

use crate::mutant::Mutant;
use crate::prover::{ask, prove, Verdict};

/// A temporary folder with a copy in which nothing is mutated, and others made after it. It is removed at the end.
pub struct Workplace {
    folder: PathBuf,
}

impl Workplace {
    pub fn new(root: &Path) -> io::Result<Workplace> {
        let folder = env::temp_dir().join(format!("mutate-{}", process::id()));
        fs::create_dir(&folder)?;
        let place = Workplace { folder };
        copy_sources(root, &place.sound())?;
        Ok(place)
    }

    fn sound(&self) -> PathBuf {
        self.folder.join("sound")
    }

    /// Proves a crate unmutated, and keeps what the prover knows of its parts.
    pub fn prove(&self, library: &str) -> io::Result<()> {
        prove(&self.sound(), library)
    }

    /// A copy in which one mutant at a time is tried. All that the crate depends on is proved and built by now.
    pub fn bench(&self, library: &str, number: usize) -> io::Result<Bench> {
        let sound = self.sound();
        let folder = self.folder.join(format!("{library}-{number}"));
        copy_sources(&sound, &folder)?;
        for crate_ in fs::read_dir(sound.join("crates"))? {
            let built = Path::new("crates")
                .join(crate_?.file_name())
                .join("out/rlib");
            if sound.join(&built).exists() {
                mirror(&sound.join(&built), &folder.join(&built), link)?;
            }
        }
        Ok(Bench { sound, folder })
    }
}

impl Drop for Workplace {
    fn drop(&mut self) {
        // What is left in a temporary folder does no harm.
        let _ = fs::remove_dir_all(&self.folder);
    }
}

pub struct Bench {
    sound: PathBuf,
    folder: PathBuf,
}

impl Bench {
    /// Only the parts that the edit changes are proved again: the prover begins with what it kept of the unmutated crate.
    pub fn try_mutant(&self, mutant: &Mutant) -> io::Result<(Verdict, String)> {
        let known = Path::new("crates")
            .join(&mutant.library)
            .join("out/incremental");
        if self.folder.join(&known).exists() {
            fs::remove_dir_all(self.folder.join(&known))?;
        }
        mirror(
            &self.sound.join(&known),
            &self.folder.join(&known),
            link_proved,
        )?;
        let file = Path::new("crates").join(&mutant.file);
        let text = fs::read_to_string(self.sound.join(&file))?;
        fs::write(self.folder.join(&file), mutant.edit.apply(&text))?;
        let answer = ask(&self.folder, &mutant.library)?;
        fs::write(self.folder.join(&file), text)?;
        Ok(answer)
    }
}

type Put = fn(&Path, &Path) -> io::Result<()>;

/// Copies the sources alone: what rt proved elsewhere on this machine it finds by itself.
fn copy_sources(from: &Path, to: &Path) -> io::Result<()> {
    for crate_ in fs::read_dir(from.join("crates"))? {
        for part in fs::read_dir(crate_?.path())? {
            let part = part?.path();
            let inside = part.strip_prefix(from).expect("it is below the folder");
            if part.is_dir() && !part.ends_with("out") {
                mirror(&part, &to.join(inside), copy)?;
            }
        }
    }
    copy(&from.join("crates.txt"), &to.join("crates.txt"))
}

/// Puts each file of a folder into another one.
fn mirror(from: &Path, to: &Path, put: Put) -> io::Result<()> {
    fs::create_dir_all(to)?;
    for entry in fs::read_dir(from)? {
        let entry = entry?;
        let target = to.join(entry.file_name());
        if entry.file_type()?.is_dir() {
            mirror(&entry.path(), &target, put)?;
        } else {
            put(&entry.path(), &target)?;
        }
    }
    Ok(())
}

fn copy(from: &Path, to: &Path) -> io::Result<()> {
    fs::copy(from, to).map(|_| ())
}

/// rt replaces the files of a library that it builds, and never writes into one.
fn link(from: &Path, to: &Path) -> io::Result<()> {
    fs::hard_link(from, to)
}

/// So it does with the files of what it proved; into the others that it keeps it may write.
fn link_proved(from: &Path, to: &Path) -> io::Result<()> {
    match from.extension() {
        Some(kind) if kind == "oantt" => link(from, to),
        _ => copy(from, to),
    }
}
