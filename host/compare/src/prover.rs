//! The prover's verdict on a throw-away crate over the rules.

use std::collections::BTreeMap;
use std::env;
use std::fs;
use std::io::{self, ErrorKind};
use std::path::{Path, PathBuf};
use std::process::{self, Command};

use crate::claims::is_claim_name;

/// A throw-away repository over a copy of the rules. It is removed at the end.
pub struct Repository {
    folder: PathBuf,
}

/// The claims that are refused, with what the prover says of each.
pub type Refused = BTreeMap<String, String>;

impl Repository {
    /// With a copy of the rules' definitions. It is outside the checkout, in which rt allows no such file beside the crates.
    pub fn new(root: &Path) -> io::Result<Repository> {
        let folder = env::temp_dir().join(format!("compare-{}", process::id()));
        fs::create_dir(&folder)?;
        let repository = Repository { folder };
        for part in ["src", "specs"] {
            let from = root.join("crates/rules").join(part);
            let to = repository.folder.join("crates/rules").join(part);
            fs::create_dir_all(&to)?;
            for entry in fs::read_dir(from)? {
                let entry = entry?;
                fs::copy(entry.path(), to.join(entry.file_name()))?;
            }
        }
        Ok(repository)
    }

    /// Asks for a proof of a crate with these files of claims. An error that is not about one of
    /// the claims is handed back as it was printed.
    pub fn refused(&self, name: &str, files: &[(String, String)]) -> io::Result<Refused> {
        self.write_crate(name, files)?;
        let mut prover = Command::new("rt");
        let place = self.folder.join("crates").join(name);
        prover.arg("check").current_dir(place);
        let ended = prover.output().map_err(|error| {
            io::Error::new(
                error.kind(),
                format!("the prover rt does not start: {error}"),
            )
        })?;
        let said = String::from_utf8_lossy(&ended.stdout);
        let refused = refused_claims(&said);
        match (ended.status.code(), refused.is_empty()) {
            (Some(0), true) | (Some(1), false) => Ok(refused),
            _ => Err(io::Error::new(ErrorKind::Other, said)),
        }
    }

    fn write_crate(&self, name: &str, files: &[(String, String)]) -> io::Result<()> {
        let place = self.folder.join("crates").join(name);
        fs::create_dir_all(place.join("src"))?;
        fs::create_dir_all(place.join("specs"))?;
        fs::write(place.join("src/lib.rt"), "// Claims alone.\n")?;
        for (file, text) in files {
            fs::write(place.join("specs").join(file), text)?;
        }
        let listed = format!("rules:\n{name}: rules\n");
        fs::write(self.folder.join("crates.txt"), listed)
    }
}

impl Drop for Repository {
    fn drop(&mut self) {
        // What is left in a temporary folder does no harm.
        let _ = fs::remove_dir_all(&self.folder);
    }
}

/// What is said of a refused claim begins at a line "PLACE: error: `NAME`: ..", and goes on in
/// indented lines.
pub fn refused_claims(said: &str) -> Refused {
    let mut refused = Refused::new();
    let mut current = None;
    for line in said.lines() {
        if let Some((_, error)) = line.split_once(": error: `") {
            let name = error.split('`').next();
            current = name.filter(|name| is_claim_name(name));
        } else if !line.starts_with(' ') {
            current = None;
        }
        if let Some(name) = current {
            refused
                .entry(name.to_string())
                .or_default()
                .extend([line, "\n"]);
        }
    }
    refused
}
