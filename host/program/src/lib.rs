//! The proved run program, started as its users start it: by the launcher at the root of the repository.

pub mod page;

use std::collections::hash_map::DefaultHasher;
use std::env;
use std::fs;
use std::hash::{Hash, Hasher};
use std::io::{ErrorKind, Write};
use std::path::{Path, PathBuf};
use std::process::{Child, ChildStdin, Command, Output, Stdio};
use std::sync::Once;
use std::thread;

use second::runfile::run;

/// The root of the repository. It is asked when a test runs: a copy of the repository may have what was compiled elsewhere.
pub fn root() -> PathBuf {
    let package = env::var_os("CARGO_MANIFEST_DIR").expect("cargo names the package's folder");
    PathBuf::from(package).join("../..")
}

static BUILT: Once = Once::new();

/// The launcher at the root, all that it needs built: what a test prints is then its own.
pub fn launcher() -> PathBuf {
    let launcher = root().join("tsendurkho");
    BUILT.call_once(|| {
        let built = Command::new(&launcher).arg("build").status();
        assert!(
            built.expect("the launcher starts").success(),
            "nothing could be built"
        );
    });
    launcher
}

/// A folder of a test's own, empty, for what it writes. It is outside the checkout, in which rt allows no link, no second
/// crates.txt and no source that is no crate's.
pub fn scratch(name: &str) -> PathBuf {
    let root = root().canonicalize().expect("the repository is there");
    let mut of_checkout = DefaultHasher::new();
    root.hash(&mut of_checkout);
    let place = format!("tsendurkho-{:016x}", of_checkout.finish());
    let folder = env::temp_dir().join(place).join(name);
    if folder.exists() {
        fs::remove_dir_all(&folder).expect("an earlier run's folder can go");
    }
    fs::create_dir_all(&folder).expect("a folder for the test");
    folder
}

/// What the second implementation writes.
pub fn wanted(text: &[u8]) -> Vec<u8> {
    let mut output = Vec::new();
    run(text, &mut output).expect("a vector takes all");
    output
}

/// Hands a piece on. The program stops reading at a bad line, and then the pipe may be closed: that is not a fault.
pub fn send(input: &mut ChildStdin, piece: &[u8]) -> bool {
    match input.write_all(piece) {
        Ok(()) => true,
        Err(error) if error.kind() == ErrorKind::BrokenPipe => false,
        Err(error) => panic!("the program's input failed: {error}"),
    }
}

/// The launcher with these arguments, and pipes for its input and both of its outputs.
pub fn started(words: &[&str]) -> Child {
    Command::new(launcher())
        .args(words)
        .stdin(Stdio::piped())
        .stdout(Stdio::piped())
        .stderr(Stdio::piped())
        .spawn()
        .expect("the launcher starts")
}

/// What the program writes for an input that arrives in these pieces. How the launcher ends has to fit it.
pub fn output_of(pieces: &[&[u8]]) -> Vec<u8> {
    let mut child = started(&["run"]);
    let mut input = child.stdin.take().expect("its input is a pipe");
    let ended = thread::scope(|scope| {
        scope.spawn(move || pieces.iter().all(|piece| send(&mut input, piece)));
        child.wait_with_output().expect("the launcher ends")
    });
    assert_fits(&ended);
    ended.stdout
}

/// The number of the line that this output refuses, and of the refusal: "At the first bad line it writes ffff, the line's
/// number from 1 (8 digits), the refusal (2 digits), and stops".
pub fn refusal_in(output: &[u8]) -> Option<(u32, u32)> {
    let text = String::from_utf8_lossy(output);
    let last = text.lines().last()?.strip_prefix("ffff")?;
    let number = |digits| u32::from_str_radix(digits, 16).expect("hexadecimal digits");
    Some((number(&last[..8]), number(&last[8..])))
}

/// A refusal is explained in one line, and the status is 3. Nothing is said where all is good.
fn assert_fits(ended: &Output) {
    let said = String::from_utf8_lossy(&ended.stderr);
    let code = ended.status.code();
    match refusal_in(&ended.stdout) {
        None => assert_eq!((&*said, code), ("", Some(0))),
        Some((line, refusal)) => {
            let start = format!("tsendurkho: line {line} refused ({refusal}): ");
            assert!(
                said.starts_with(&start) && said.lines().count() == 1,
                "{said:?}, not {start:?}"
            );
            assert_eq!(code, Some(3), "{said}");
        }
    }
}

/// How the launcher ends with these words.
pub fn launched(words: &[&str]) -> Output {
    let output = Command::new(launcher())
        .args(words)
        .stdin(Stdio::null())
        .output();
    output.expect("the launcher starts")
}

/// The launcher's standard output, standard error and exit status.
pub fn parts(ended: &Output) -> (String, String, Option<i32>) {
    let text = |bytes| String::from_utf8_lossy(bytes).into_owned();
    (
        text(&ended.stdout),
        text(&ended.stderr),
        ended.status.code(),
    )
}

/// A path as an argument.
pub fn word(path: &Path) -> &str {
    path.to_str().expect("a path of plain characters")
}
