//! The libraries of a repository, and their source files.

use std::env;
use std::fs;
use std::io;
use std::path::{Path, PathBuf};

/// A source file, named as from the folder `crates`.
pub struct Source {
    pub name: String,
    pub text: String,
}

/// The root of the repository, asked at run time: a copy of the repository may have what was compiled elsewhere.
pub fn root() -> PathBuf {
    let package = env::var_os("CARGO_MANIFEST_DIR").expect("cargo names the package's folder");
    PathBuf::from(package).join("../..")
}

/// The libraries that `crates.txt` lists, in its order. A program is none: no contract says what it writes.
pub fn libraries(root: &Path) -> io::Result<Vec<String>> {
    let list = fs::read_to_string(root.join("crates.txt"))?;
    let lines = list
        .lines()
        .filter_map(|line| line.split('#').next()?.split_once(':'));
    // After the name may stand what kind of crate it is.
    let names = lines.filter_map(|(crate_, _)| crate_.split_whitespace().next());
    Ok(names
        .filter(|name| folder(root, name).join("lib.rt").exists())
        .map(String::from)
        .collect())
}

/// The source files of a crate, by name.
pub fn sources(root: &Path, library: &str) -> io::Result<Vec<Source>> {
    let mut sources = Vec::new();
    for entry in fs::read_dir(folder(root, library))? {
        let path = entry?.path();
        if let Some(file) = path
            .file_name()
            .and_then(|name| name.to_str())
            .filter(|name| name.ends_with(".rt"))
        {
            let name = format!("{library}/src/{file}");
            let text = fs::read_to_string(&path)?;
            sources.push(Source { name, text });
        }
    }
    sources.sort_by(|one, other| one.name.cmp(&other.name));
    Ok(sources)
}

fn folder(root: &Path, name: &str) -> PathBuf {
    root.join("crates").join(name).join("src")
}
