//! Wrong use of a command is answered in one line on standard error, with status 2, and `--help` needs nothing.

use std::fs;
use std::os::unix::net::UnixListener;
use std::path::{Path, PathBuf};
use std::process::{Command, Output, Stdio};

use program::{launched, launcher, parts, root, scratch, word};

/// The commands, as the help lists them.
const COMMANDS: [&str; 12] = [
    "run",
    "build",
    "simulate",
    "compare",
    "bench",
    "mutate",
    "stats",
    "test",
    "install",
    "uninstall",
    "version",
    "help",
];

fn assert_wrong(words: &[&str], said: &str) {
    let (output, errors, code) = parts(&launched(words));
    assert_eq!(
        (output.as_str(), errors, code),
        ("", format!("{said}\n"), Some(2)),
        "{words:?}"
    );
}

/// What the launcher itself says of a wrong use.
fn refused(words: &[&str], said: &str) {
    let command = words[0];
    assert_wrong(
        words,
        &format!("tsendurkho: {command}: {said}; try ./tsendurkho {command} --help"),
    );
}

#[test]
fn an_unknown_command() {
    for command in ["walk", "", "--fast", "r.n", "usage:"] {
        let said = format!("tsendurkho: there is no command '{command}'; try ./tsendurkho help");
        assert_wrong(&[command], &said);
    }
    refused(&["help", "walk"], "there is no command 'walk'");
}

#[test]
fn options_and_arguments_that_a_command_does_not_take() {
    for (command, most) in [
        ("run", 1),
        ("build", 0),
        ("bench", 0),
        ("test", 0),
        ("install", 1),
        ("uninstall", 1),
        ("version", 0),
        ("help", 1),
    ] {
        refused(&[command, "--fast"], "there is no option '--fast'");
        let mut words = vec![command, "/a", "/b"];
        words.truncate(most + 2);
        let extra = ["/a", "/b"][most];
        refused(&words, &format!("one argument too many: '{extra}'"));
    }
    let stats = "; try ./tsendurkho stats --help";
    assert_wrong(
        &["stats", "--fast"],
        &format!("stats: there is no option '--fast'{stats}"),
    );
    assert_wrong(
        &["stats", "rules"],
        &format!("stats: one argument too many: 'rules'{stats}"),
    );
    assert_wrong(
        &["stats", "--lines", "rules"],
        &format!("stats: one argument too many: 'rules'{stats}"),
    );
}

/// The programs of the host side read their own arguments.
#[test]
fn arguments_that_a_tool_does_not_take() {
    for (words, said) in [
        (&["simulate", "--fast"][..], "there is no option '--fast'"),
        (&["simulate", "1", "2"], "one argument too many: '2'"),
        (&["simulate", "--svg"], "--svg needs a FILE"),
        (
            &["simulate", "--svg", "."],
            "'.' is a directory, and a file is wanted",
        ),
        (
            &["simulate", "--svg", "run.svg", "5"],
            "these do not go together: --svg run.svg 5",
        ),
        (&["compare", "--fast"], "there is no option '--fast'"),
        (&["compare", "1", "2", "3"], "one argument too many: '3'"),
        (&["mutate", "--fast"], "there is no option '--fast'"),
        (&["mutate", "lug"], "'lug' is not a library in crates.txt"),
        (
            &["mutate", "--only", "no such edit", "lag"],
            "no edit matches --only 'no such edit'",
        ),
        (
            &["mutate", "--list", "--only", "999999", "lag"],
            "no edit matches --only '999999'",
        ),
        (
            &["mutate", "settle", "end_to_end"],
            "there is nothing to edit in settle, end_to_end",
        ),
    ] {
        let tool = words[0];
        let line = format!("{tool}: {said}; try ./tsendurkho {tool} --help");
        assert_wrong(words, &line);
    }
}

/// The other libraries are worked through.
#[test]
fn a_library_without_code_is_named() {
    let (output, errors, code) = parts(&launched(&["mutate", "--list", "end_to_end", "lag"]));
    assert!(output.contains(" lag/src/lib.rt:"), "{output}");
    assert_eq!(
        (errors.as_str(), code),
        ("mutate: there is nothing to edit in end_to_end\n", Some(0))
    );
}

#[test]
fn a_file_that_cannot_be_a_run_file() {
    let folder = scratch("no-run-file");
    let (missing, socket) = (folder.join("missing"), folder.join("socket"));
    let _bound = UnixListener::bind(&socket).expect("a socket can be made");
    refused(
        &["run", word(&missing)],
        &format!("there is no file '{}'", missing.display()),
    );
    refused(&["run", ""], "there is no file ''");
    refused(
        &["run", word(&folder)],
        &format!(
            "'{}' is a directory, and a file is wanted",
            folder.display()
        ),
    );
    refused(
        &["run", word(&socket)],
        &format!("'{}' cannot be read", socket.display()),
    );
}

#[test]
fn an_impossible_prefix() {
    let file = scratch("no-prefix").join("file");
    fs::write(&file, "").expect("a file can be written");
    for command in ["install", "uninstall"] {
        refused(&[command, ""], "PREFIX is empty");
        refused(&[command, "usr"], "PREFIX has to begin with /: 'usr'");
        refused(
            &[command, "/a b"],
            "PREFIX may have only letters, digits and / . _ + -: '/a b'",
        );
        refused(
            &[command, word(&file)],
            &format!("PREFIX is not a folder: '{}'", file.display()),
        );
    }
}

/// A launcher in a copy of the repository without anything else, where neither rt nor cargo is on the PATH.
fn bare(place: &Path, words: &[&str]) -> Output {
    let shell = "PATH=$1; shift; exec sh ./tsendurkho \"$@\"";
    Command::new("sh")
        .args(["-c", shell, "sh", word(&place.join("bin"))])
        .args(words)
        .current_dir(place)
        .stdin(Stdio::null())
        .output()
        .expect("a shell starts")
}

fn bare_copy(name: &str) -> PathBuf {
    let place = scratch(name);
    let copy = "cp -R tsendurkho launch .ci VERSION \"$1\" && mkdir \"$1/bin\" && \
                for tool in sh bash awk cat dirname paste sed; do ln -s \"$(command -v $tool)\" \"$1/bin\"; done";
    let copied = Command::new("sh")
        .args(["-c", copy, "sh", word(&place)])
        .current_dir(root())
        .status();
    assert!(copied.expect("a shell starts").success());
    place
}

#[test]
fn help_on_a_command_needs_nothing() {
    let place = bare_copy("bare");
    let (whole, _, _) = parts(&bare(&place, &["help"]));
    for command in COMMANDS {
        let (part, errors, code) = parts(&bare(&place, &[command, "--help"]));
        assert_eq!((errors.as_str(), code), ("", Some(0)), "{command}");
        let (usage, paragraphs) = part.split_once("\n\n").expect("the usage comes first");
        assert!(
            whole.starts_with(usage) && whole.contains(paragraphs),
            "{part}"
        );
        assert!(paragraphs.starts_with(&format!("  {command} ")), "{part}");
        for words in [
            &[command, "-h"][..],
            &[command, "--fast", "--help"],
            &["help", command],
        ] {
            assert_eq!(
                parts(&bare(&place, words)),
                (part.clone(), String::new(), Some(0)),
                "{words:?}"
            );
        }
    }
}

/// The parts of the help are all of it, and every option is named.
#[test]
fn the_help_names_every_command_and_option() {
    let (whole, _, code) = parts(&launched(&["help"]));
    assert_eq!(code, Some(0));
    for words in [&[][..], &["--help"], &["-h"]] {
        assert_eq!(
            parts(&launched(words)),
            (whole.clone(), String::new(), Some(0))
        );
    }
    let heads = whole
        .lines()
        .filter(|line| line.starts_with("  ") && !line[2..].starts_with(' '));
    let mut named: Vec<_> = heads
        .map(|line| line.split_whitespace().next().expect("a word"))
        .collect();
    named.dedup();
    assert_eq!(named, COMMANDS);
    let options = [
        "--list",
        "--all",
        "--only WHICH",
        "--jobs N",
        "--fault cooldown",
        "--seed SEED",
        "--svg FILE",
        "--lies",
        "--lines",
    ];
    for option in options
        .iter()
        .chain(&["[CASES [SEED]]", "PREFIX", "DESTDIR"])
    {
        assert!(whole.contains(option), "{option}");
    }
    assert!(whole.lines().all(|line| line.chars().count() <= 80));
}

/// What is missing is named where it is needed.
#[test]
fn a_missing_tool() {
    let place = bare_copy("missing-tools");
    for (words, said) in [
        (&["simulate"][..], "tsendurkho: simulate needs cargo\n"),
        (
            &["simulate", "--svg", "run.svg"],
            "tsendurkho: simulate needs cargo\n",
        ),
        (
            &["test"],
            "tsendurkho: the gate cannot be run: the Rattle kit's rt is not on the PATH\n",
        ),
        (
            &["stats"],
            "stats: the seconds cannot be measured: the Rattle kit's rt is not on the PATH\n",
        ),
        (
            &["build"],
            "tsendurkho: the run program and the archive cannot be proved and built: \
             the Rattle kit's rt is not on the PATH\n",
        ),
    ] {
        assert_eq!(
            parts(&bare(&place, words)),
            (String::new(), said.to_string(), Some(1))
        );
    }
}

/// Whichever shell is started for it: here those that are there.
#[test]
fn every_shell_says_the_same() {
    let file = scratch("shells").join("run.txt");
    fs::write(&file, "020000030000\n000000020001\n0007\n").expect("a file can be written");
    let by_default = parts(&launched(&["run", word(&file)]));
    assert_eq!(by_default.2, Some(3));
    for shell in ["sh", "dash", "bash"] {
        let started = Command::new(shell)
            .arg(launcher())
            .arg("run")
            .arg(&file)
            .output();
        match started {
            Ok(ended) => assert_eq!(parts(&ended), by_default, "{shell}"),
            Err(_) => assert_ne!(shell, "sh"),
        }
    }
}
