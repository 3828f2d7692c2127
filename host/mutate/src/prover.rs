//! What the prover says of a crate.

use std::io;
use std::path::{Path, PathBuf};
use std::process::{Command, Output};

#[derive(Clone, Copy, Debug, PartialEq, Eq)]
pub enum Verdict {
    /// It is a program, and it is not proved.
    Refused,
    /// It is proved.
    Survived,
    /// The compiler refuses it before anything is to be proved.
    NotAProgram,
    /// The prover could not decide, or not in time.
    NoVerdict,
}

/// In seconds. A mutant takes a few, and on a machine that does other work too half a minute.
const TIME_LIMIT: &str = "300";

/// Proves a crate as it is, and whatever it depends on. An error has what the prover printed.
pub fn prove(folder: &Path, library: &str) -> io::Result<()> {
    let mut command = Command::new("rt");
    let command = command.arg("check").current_dir(place(folder, library));
    let reason = match command.output() {
        Ok(output) if output.status.success() => return Ok(()),
        Ok(output) => format!("{library} is not proved as it is:\n{}", printed(&output)),
        Err(error) => format!("rt, the prover's command, cannot be started: {error}"),
    };
    Err(io::Error::new(io::ErrorKind::Other, reason))
}

/// Where rt is asked about a crate.
fn place(folder: &Path, library: &str) -> PathBuf {
    folder.join("crates").join(library)
}

/// Asks about a crate whose dependencies are proved. Others are tried beside it, so rt is to use one processor.
pub fn ask(folder: &Path, library: &str) -> io::Result<(Verdict, String)> {
    let mut command = Command::new("timeout");
    command.args(["--kill-after=5", TIME_LIMIT]);
    command.args(["rt", "check", "--jobs", "1"]);
    let output = command.current_dir(place(folder, library)).output()?;
    let text = printed(&output);
    Ok((verdict(output.status.code(), &text), text))
}

fn printed(output: &Output) -> String {
    [&output.stdout, &output.stderr]
        .map(|bytes| String::from_utf8_lossy(bytes))
        .concat()
}

/// By the exit status and what was printed.
pub fn verdict(status: Option<i32>, printed: &str) -> Verdict {
    let has_line = |start: &str| printed.lines().any(|line| line.starts_with(start));
    match status {
        Some(0) if has_line("logic=proved") => Verdict::Survived,
        Some(1) if has_line("logic=not-proved") => Verdict::Refused,
        Some(1) if printed.contains(": error[") => Verdict::NotAProgram,
        _ => Verdict::NoVerdict,
    }
}
