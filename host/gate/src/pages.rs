//! What people read, for the tests that hold it together.

use std::collections::BTreeMap;
use std::fs;
use std::path::{Path, PathBuf};

use program::root;

pub fn read(path: &Path) -> String {
    let text = fs::read_to_string(path);
    text.unwrap_or_else(|error| panic!("{}: {error}", path.display()))
}

pub fn page(name: &str) -> String {
    read(&root().join(name))
}

/// All files below a folder, or the file itself. What rt and cargo leave in `out` and `target` is not of the repository.
pub fn files(path: &Path, found: &mut Vec<PathBuf>) {
    if path.is_file() {
        found.push(path.to_path_buf());
        return;
    }
    if path.ends_with("out") || path.ends_with("target") {
        return;
    }
    for entry in fs::read_dir(path).expect("a folder of the repository") {
        files(&entry.expect("an entry of a folder").path(), found);
    }
}

/// The files that people read: all of the repository but the examples' data.
pub fn texts() -> Vec<PathBuf> {
    let mut found = Vec::new();
    for part in ["crates", "docs", "host", "include", "launch", ".ci"] {
        files(&root().join(part), &mut found);
    }
    found.extend(["README.md", "CHANGELOG.md", "tsendurkho"].map(|name| root().join(name)));
    found
}

/// The text of each numbered section of the rules, its subsections with it.
pub fn sections() -> BTreeMap<String, String> {
    let mut sections: BTreeMap<String, String> = BTreeMap::new();
    let mut open: Vec<String> = Vec::new();
    for line in page("docs/RULES.md").lines() {
        let depth = line.chars().take_while(|&sign| sign == '#').count();
        if depth > 0 {
            open.truncate(depth.saturating_sub(2));
            let number = line[depth..].trim().split(' ').next().unwrap_or("");
            if number.starts_with(|sign: char| sign.is_ascii_digit()) {
                sections.insert(number.to_string(), String::new());
                open.push(number.to_string());
            }
        }
        for number in &open {
            let section = sections.get_mut(number).expect("an open section");
            section.push_str(line);
            section.push('\n');
        }
    }
    sections
}

/// One space for any white space, and no emphasis.
pub fn plain(text: &str) -> String {
    let words: Vec<&str> = text.split_whitespace().collect();
    words.join(" ").replace("**", "")
}

/// The names between backquotes.
pub fn names(cell: &str) -> impl Iterator<Item = &str> {
    let quoted = cell.split('`').skip(1).step_by(2);
    quoted.filter(|name| !name.contains(' '))
}

/// The rows of a table with that many columns, without its head.
pub fn rows(text: &str, columns: usize) -> Vec<Vec<String>> {
    let lines = text.lines().filter(|line| line.starts_with("| "));
    let cells = lines.map(|line| line.trim_matches('|').split('|').map(plain));
    let rows = cells.map(Iterator::collect::<Vec<String>>);
    rows.filter(|row| row.len() == columns).skip(1).collect()
}

/// What a page has in its fences of this language, one after the other.
pub fn fenced(text: &str, language: &str) -> Vec<String> {
    let fences = text.split("\n```").skip(1).step_by(2);
    let start = format!("{language}\n");
    let texts = fences.filter_map(|fence| fence.strip_prefix(&start));
    texts.map(|text| format!("{text}\n")).collect()
}
