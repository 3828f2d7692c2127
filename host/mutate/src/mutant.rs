//! A mutant: a source file with one edit.

use std::collections::{HashMap, HashSet};
use std::io;
use std::path::Path;

use crate::code::{Code, Part};
use crate::edit::Edit;
use crate::kinds::{Kind, KINDS};
use crate::repository::{sources, Source};

pub struct Mutant {
    pub library: String,
    pub file: String,
    pub line: usize,
    pub kind: &'static Kind,
    /// The function or the constant, the kind, and the lines before and after: the same wherever the lines stand.
    what: String,
    pub edit: Edit,
}

impl Mutant {
    /// What it is called in a listing.
    pub fn name(&self) -> String {
        format!("{}:{} {}", self.file, self.line, self.what)
    }

    /// What it is called in the list of equivalents, which a line added above does not change.
    pub fn lasting_name(&self) -> String {
        format!("{} {}", self.file, self.what)
    }
}

/// All mutants of a crate, in the order of its files and their lines.
pub fn mutants(root: &Path, library: &str) -> io::Result<Vec<Mutant>> {
    let sources = sources(root, library)?;
    Ok(sources
        .iter()
        .flat_map(|source| mutants_of(library, source))
        .collect())
}

/// All mutants of a file. An edit that leads to the same text as an earlier one is left out.
pub fn mutants_of(library: &str, source: &Source) -> Vec<Mutant> {
    let code = Code::new(&source.text);
    let mut found = Vec::new();
    let mut texts = HashSet::from([source.text.clone()]);
    for part in code.parts() {
        for kind in &KINDS {
            let edits = (kind.edits)(&code, &part);
            let edits = edits
                .into_iter()
                .filter(|edit| texts.insert(edit.apply(&source.text)));
            found.extend(edits.map(|edit| mutant(library, source, &part, kind, edit)));
        }
    }
    found.sort_by_key(|mutant| mutant.edit.place.start);
    number_repeated(&mut found);
    found
}

fn mutant(library: &str, source: &Source, part: &Part, kind: &'static Kind, edit: Edit) -> Mutant {
    let (old, new) = edit.lines(&source.text);
    let new = if new.is_empty() { "nothing" } else { &new };
    Mutant {
        library: library.to_string(),
        file: source.name.clone(),
        line: 1 + source.text[..edit.place.start].matches('\n').count(),
        kind,
        what: format!("{} {}: {old} -> {new}", part.name, kind.name),
        edit,
    }
}

/// The second of two that would have one lasting name gets a number, and so on.
fn number_repeated(mutants: &mut [Mutant]) {
    let mut seen = HashMap::new();
    for mutant in mutants {
        let count = seen.entry(mutant.what.clone()).or_insert(0);
        *count += 1;
        if *count > 1 {
            mutant.what = format!("{} ({count})", mutant.what);
        }
    }
}
