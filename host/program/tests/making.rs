//! The launcher makes what is missing, stale or half-made, and only that. A stand-in for rt notes what it is asked, and makes
//! files of its own.

use std::fs::{self, Permissions};
use std::io::{BufRead, BufReader, Read};
use std::os::unix::fs::PermissionsExt;
use std::path::PathBuf;
use std::process::{Child, ChildStderr, Command, Output, Stdio};

use program::{parts, root, scratch};

const PROGRAM: &str = "target/bin/blockrun";
const ARCHIVE: &str = "target/staticlib/libtsendurkho.a";
const ASKED: [&str; 2] = ["run blockrun", "lib tsendurkho"];

/// It is asked in a crate's folder, and notes that crate and what it is asked for. It ends with the status that the file
/// `status` has, once, and prints what `prints` has; a program it runs, too, on what it is given.
const STAND_IN: &str = r#"#!/bin/sh
crate=${PWD##*/}
out=$PWD/out
cd ../.. || exit
echo "$1 $crate" >>asked
cat prints 2>/dev/null
if [ -f status ]; then
    status=$(cat status)
    rm status
    exit "$status"
fi
mkdir -p "$out"
case $1 in
run)
    echo "program of $(cat crates/only/src/lib.rt)" >"$out/$crate"
    cat >given
    ;;
lib) echo "archive of $(cat crates/only/src/lib.rt)" >"$out/lib$crate.a" ;;
esac
"#;

/// The seconds of each crate.
const TABLE: &str = "# Figures

| crate | a | b | c | d | e | seconds |
|---|---:|---:|---:|---:|---:|---:|
| only | 1 | 1 | 1 | 1 | 1 | 61 |
| other | 1 | 1 | 1 | 1 | 1 | 600 |
| blockrun | 1 | 1 | 1 | 1 | 1 | 60 |
| tsendurkho | 1 | 1 | 1 | 1 | 1 | 30 |
| all | 4 | 4 | 4 | 4 | 4 | 751 |
";

/// Both products depend on one crate, and none on another.
const CRATES: &str = "# NAME: what it depends on
only:
other: only
blockrun: only
tsendurkho staticlib: only
";

/// A repository whose products show the source of one crate.
struct Repository(PathBuf);

impl Repository {
    fn new(name: &str) -> Repository {
        let place = Repository(scratch(name));
        let copied = Command::new("cp")
            .arg("-R")
            .args([root().join("tsendurkho"), root().join("launch")])
            .arg(&place.0)
            .status();
        assert!(copied.expect("cp starts").success());
        place.write("crates.txt", CRATES);
        place.write("crates/only/src/lib.rt", "first\n");
        for name in ["other", "blockrun", "tsendurkho"] {
            place.write(&format!("crates/{name}/src/lib.rt"), "of its own\n");
        }
        place.write("crates/blockrun/stdin", "a run file\n");
        place.write("docs/ECONOMY.md", TABLE);
        place.write_program("bin/rt", STAND_IN);
        place
    }

    fn write_program(&self, file: &str, text: &str) {
        self.write(file, text);
        fs::set_permissions(self.0.join(file), Permissions::from_mode(0o755))
            .expect("it can be made a program");
    }

    fn write(&self, file: &str, text: &str) {
        let path = self.0.join(file);
        fs::create_dir_all(path.parent().expect("a file is in a folder")).expect("a folder for it");
        fs::write(path, text).expect("the file can be written");
    }

    fn read(&self, file: &str) -> String {
        fs::read_to_string(self.0.join(file)).unwrap_or_default()
    }

    fn remove(&self, file: &str) {
        fs::remove_file(self.0.join(file)).expect("the file is there");
    }

    /// A stamp of rt's, of this time, of a library that it has built.
    fn stamp(&self, name: &str, time: &str) {
        let file = format!("crates/{name}/out/rlib/stamp");
        self.write(&file, "");
        let stamp = self.0.join(file);
        let touched = Command::new("touch").args(["-d", time]).arg(stamp).status();
        assert!(touched.expect("touch starts").success());
    }

    fn stamp_all(&self, time: &str) {
        for name in ["only", "other", "blockrun", "tsendurkho"] {
            self.stamp(name, time);
        }
    }

    fn command(&self, program: &str) -> Command {
        let mut command = Command::new(program);
        let path = format!(
            "{}:{}",
            self.0.join("bin").display(),
            std::env::var("PATH").unwrap_or_default()
        );
        command
            .current_dir(&self.0)
            .env("PATH", path)
            .stdin(Stdio::null());
        command
    }

    fn build(&self) -> Output {
        self.command("./tsendurkho")
            .arg("build")
            .output()
            .expect("the launcher starts")
    }

    /// Builds, and answers what rt was asked for it.
    fn asked(&self) -> Vec<String> {
        let before = self.read("asked").lines().count();
        let (output, errors, code) = parts(&self.build());
        assert_eq!((output.as_str(), code), ("", Some(0)), "{errors}");
        let now = self.read("asked");
        let asked: Vec<_> = now.lines().skip(before).map(String::from).collect();
        let lines = if asked.is_empty() { 0 } else { 1 };
        assert_eq!(errors.lines().count(), lines, "{errors}");
        asked
    }

    fn assert_made_of(&self, source: &str) {
        assert_eq!(self.read(PROGRAM), format!("program of {source}\n"));
        assert_eq!(self.read(ARCHIVE), format!("archive of {source}\n"));
    }
}

#[test]
fn a_first_build_and_none_after_it() {
    let place = Repository::new("first-build");
    assert_eq!(place.asked(), ASKED);
    place.assert_made_of("first");
    assert_eq!(place.read("given"), "a run file\n");
    assert!(place.asked().is_empty());
}

/// A product's own crate counts, and of those that it depends on the ones without a stamp, with a file later than it, or
/// on top of such a crate.
#[test]
fn the_expected_time_is_that_of_what_is_to_be_proved() {
    let place = Repository::new("expected-time");
    for (kept, minutes) in [
        ("", "3 minutes"),
        ("only", "2 minutes"),
        ("only blockrun tsendurkho", "2 minutes"),
        ("blockrun", "3 minutes"),
    ] {
        place.write("crates/only/src/lib.rt", kept);
        place.stamp_all("@0");
        for name in kept.split_whitespace() {
            place.stamp(name, "tomorrow");
        }
        let line =
            format!("tsendurkho: proving the run program and the archive, about {minutes}\n");
        assert_eq!(parts(&place.build()), (String::new(), line, Some(0)));
    }
    place.remove(ARCHIVE);
    let line = "tsendurkho: proving the archive, about 2 minutes\n";
    assert_eq!(
        parts(&place.build()),
        (String::new(), line.to_string(), Some(0))
    );
}

/// Of a changed, a new or a renamed source, or of one put back as it was.
#[test]
fn a_changed_source() {
    let place = Repository::new("changed-source");
    place.asked();
    let changes: [&dyn Fn(); 4] = [
        &|| place.write("crates/only/src/lib.rt", "second\n"),
        &|| place.write("crates/only/proofs/Law.antt", "law\n"),
        &|| {
            fs::rename(
                place.0.join("crates/only/proofs/Law.antt"),
                place.0.join("crates/only/proofs/Lemma.antt"),
            )
            .expect("it can be renamed")
        },
        &|| place.write("crates/only/src/lib.rt", "first\n"),
    ];
    for change in changes {
        change();
        assert_eq!(place.asked(), ASKED);
        assert!(place.asked().is_empty());
    }
    place.assert_made_of("first");
    // The edits that must be refused are not part of what is built, and what rt keeps is none of the sources.
    place.write("crates/only/must-fail/one.edit", "new: second\n");
    place.write("crates/only/out/incremental/judged", "second\n");
    assert!(place.asked().is_empty());
}

/// Whatever is gone or is another, as after a folder was half removed.
#[test]
fn a_product_that_is_gone_or_another() {
    let place = Repository::new("gone");
    place.asked();
    for (file, asked) in [
        (PROGRAM, ASKED[0]),
        (ARCHIVE, ASKED[1]),
        ("target/made/blockrun", ASKED[0]),
        ("target/made/libtsendurkho.a", ASKED[1]),
    ] {
        place.remove(file);
        assert_eq!(place.asked(), [asked], "{file}");
        place.assert_made_of("first");
    }
    place.write(ARCHIVE, "half of an archi");
    assert_eq!(place.asked(), [ASKED[1]]);
    place.assert_made_of("first");
    fs::remove_dir_all(place.0.join("target")).expect("target/ is there");
    assert_eq!(place.asked(), ASKED);
    place.assert_made_of("first");
}

/// rt ends with 2 where it cannot read a library that it built: then those are thrown away, and rt asked once more.
#[test]
fn what_rt_kept_is_damaged() {
    let place = Repository::new("damaged");
    place.stamp("only", "tomorrow");
    place.write("crates/only/out/incremental/judged", "");
    place.write("status", "2");
    let ended = place.build();
    assert_eq!(
        (ended.status.code(), place.read("asked").as_str()),
        (Some(0), "run blockrun\nrun blockrun\nlib tsendurkho\n")
    );
    assert!(!place.0.join("crates/only/out/rlib").exists());
    assert!(place.0.join("crates/only/out/incremental/judged").exists());
    place.assert_made_of("first");
}

/// A proof that fails is asked for once, and what rt printed of it is shown: the last lines, and where the others are.
#[test]
fn a_build_that_fails() {
    let place = Repository::new("fails");
    let printed: String = (1..=50)
        .map(|line| format!("line {line} of rt\n"))
        .collect();
    for status in ["1", "3"] {
        place.write("prints", &printed);
        place.write("status", status);
        let lines = place.read("asked").lines().count();
        let (output, errors, code) = parts(&place.build());
        assert_eq!((output.as_str(), code), ("", Some(1)));
        let said: Vec<_> = errors.lines().collect();
        assert_eq!(said.len(), 1 + 40 + 1, "{errors}");
        assert_eq!((said[1], said[40]), ("line 11 of rt", "line 50 of rt"));
        assert_eq!(said[41], "tsendurkho: the run program could not be built; all that rt printed is in target/build.log");
        assert_eq!(place.read("target/build.log"), printed);
        assert_eq!(place.read("asked").lines().count(), lines + 1);
        assert!(!place.0.join("target/made/blockrun").exists());
    }
    place.remove("prints");
    assert_eq!(place.asked(), ASKED);
}

/// The program that reads the arguments of a drawing comes before the proofs; if it finds a fault, it has said so.
#[test]
fn wrong_arguments_of_a_drawing_prove_nothing() {
    let place = Repository::new("wrong-drawing");
    let stand_in = "#!/bin/sh\necho \"$*\" >>started\nexit 2\n";
    place.write_program("bin/cargo", stand_in);
    let words = ["simulate", "--svg", "run.svg", "5"];
    let ended = place.command("./tsendurkho").args(words).output();
    assert_eq!(
        parts(&ended.expect("the launcher starts")),
        (String::new(), String::new(), Some(2))
    );
    let started = place.read("started");
    assert!(
        started.ends_with(" --package simulate -- --svg run.svg 5\n"),
        "{started}"
    );
    assert_eq!(
        (started.lines().count(), place.read("asked").as_str()),
        (1, "")
    );
}

/// All that a terminal gets.
fn on_terminal(place: &Repository, command: &str) -> String {
    let script = ["--quiet", "--return", "--command", command, "/dev/null"];
    parts(
        &place
            .command("script")
            .args(script)
            .output()
            .expect("script starts"),
    )
    .0
}

#[test]
fn on_a_terminal_the_line_is_overwritten_and_cleared() {
    let place = Repository::new("terminal");
    place.write(
        "prints",
        "fn only::one: proved\ncrate only: modules loaded=9 checked=3\nlogic=proved functions=1 sum=0\nother\n\
         crate worse: modules loaded=9 checked=3\nlogic=not-proved\n\
         crate more: modules loaded=9 checked=0\naxioms libc: none reached of the 128 declared\nlogic=proved functions=2 sum=0\n",
    );
    let clear = "\r\x1b[K";
    let line = |text: &str| format!("{clear}tsendurkho: proving{text}");
    let proved = ["only", "more"].map(|name| format!(", about 3 minutes in all; {name} is proved"));
    let crates = line(&proved[0]) + &line(&proved[1]);
    let said =
        line(" the run program and the archive, about 3 minutes") + &crates + &crates + clear;
    assert_eq!(on_terminal(&place, "./tsendurkho build"), said);
    assert_eq!(on_terminal(&place, "./tsendurkho build"), "");
}

/// As by Ctrl-C, which reaches all that the terminal has started.
#[test]
fn on_a_terminal_an_interrupted_build_clears_its_line() {
    let place = Repository::new("interrupted");
    place.write_program("bin/rt", "#!/bin/sh\nkill -INT 0\n");
    let clear = "\r\x1b[K";
    let said = on_terminal(&place, "exec ./tsendurkho build");
    let line = "tsendurkho: proving the run program and the archive, about 3 minutes";
    assert_eq!(said, format!("{clear}{line}{clear}"));
    assert!(!place.0.join("target/made/blockrun").exists());
}

/// A build that has started, and the first line that it says.
fn started(place: &Repository) -> (Child, BufReader<ChildStderr>, String) {
    let mut command = place.command("./tsendurkho");
    let mut child = command
        .arg("build")
        .stderr(Stdio::piped())
        .spawn()
        .expect("the launcher starts");
    let mut said = BufReader::new(child.stderr.take().expect("its standard error is a pipe"));
    let mut line = String::new();
    said.read_line(&mut line).expect("it says something");
    (child, said, line)
}

/// A build waits for one that is under way, and then has nothing to make.
#[test]
fn another_build_under_way() {
    let place = Repository::new("another");
    // Each time it waits until something may be read.
    place.write(
        "bin/rt",
        &STAND_IN.replacen("echo \"$1", "read -r _ <\"$1.gate\"\necho \"$1", 1),
    );
    let gates = ["run.gate", "lib.gate"].map(|name| place.0.join(name));
    assert!(Command::new("mkfifo")
        .args(&gates)
        .status()
        .expect("mkfifo starts")
        .success());
    let (first, second) = (started(&place), started(&place));
    assert_eq!(
        first.2,
        "tsendurkho: proving the run program and the archive, about 3 minutes\n"
    );
    assert_eq!(second.2, "tsendurkho: waiting for another build\n");
    for gate in gates {
        fs::write(gate, "go\n").expect("the stand-in reads it");
    }
    for (mut child, mut said, _) in [first, second] {
        said.read_to_string(&mut String::new())
            .expect("what else it says");
        assert!(child.wait().expect("the launcher ends").success());
    }
    assert_eq!(place.read("asked").lines().collect::<Vec<_>>(), ASKED);
    place.assert_made_of("first");
}
