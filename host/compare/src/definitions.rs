//! The names of the definitions, read from the rules themselves.

use std::fs;
use std::io;
use std::path::Path;

/// What a module of claims says before its claims, and under each of them.
pub struct Definitions {
    /// The lines that bring every definition in.
    pub imports: String,
    /// The definitions that compute only where they are named.
    pub unfolded: Vec<String>,
}

impl Definitions {
    /// Of the folder of the rules' definitions, whose `Lib.antt` names the files.
    pub fn read(specs: &Path) -> io::Result<Definitions> {
        let mut definitions = Definitions {
            imports: String::new(),
            unfolded: Vec::new(),
        };
        let lib = fs::read_to_string(specs.join("Lib.antt"))?;
        for module in lib.lines().filter_map(|line| line.strip_prefix("pub mod ")) {
            let text = fs::read_to_string(specs.join(module).with_extension("antt"))?;
            definitions.add(module, &text);
        }
        Ok(definitions)
    }

    /// The definitions of one file. No two files have one of the same name.
    fn add(&mut self, module: &str, text: &str) {
        let mut imports = Vec::new();
        for line in text.lines() {
            let unfoldable = declared(line, "unfoldable pub ");
            if let Some(name) = unfoldable.or_else(|| declared(line, "abbrev pub ")) {
                imports.push(name);
                if unfoldable.is_some() {
                    self.unfolded.push(name.to_string());
                }
            }
        }
        let imports = imports.join(", ");
        let line = format!("use Rattle.rules.specs.{module}.{{{imports}}}\n");
        self.imports += &line;
    }
}

/// The name that a line declares after these words.
fn declared<'a>(line: &'a str, words: &str) -> Option<&'a str> {
    line.strip_prefix(words)?.split(' ').next()
}
