//! docs/FIRMWARE.md: its programs are good C, its example prints what it says, its sizes and times are the rules', and no step is
//! longer than it says.

use std::env::consts::ARCH;
use std::fs;
use std::path::{Path, PathBuf};
use std::process::Command;

use gate::pages::{fenced, page};
use program::root;
use second::params::parameters;

const PAGE: &str = "docs/FIRMWARE.md";

/// A file of the test's own with this text.
fn file(name: &str, text: &str) -> PathBuf {
    let path = Path::new(env!("CARGO_TARGET_TMPDIR")).join(name);
    fs::write(&path, text).expect("the file can be written");
    path
}

/// A compiler for x86-64, which the archive is code for, with the header and all warnings taken as errors.
fn compiler() -> Command {
    let mut cc = if ARCH == "x86_64" {
        Command::new("cc")
    } else {
        Command::new("x86_64-linux-gnu-gcc")
    };
    cc.args(["-std=c89", "-pedantic", "-Wall", "-Wextra", "-Werror"]);
    cc.arg("-I").arg(root().join("include"));
    cc
}

fn assert_compiles(cc: &mut Command) {
    let output = cc.output().expect("the compiler starts");
    let said = String::from_utf8_lossy(&output.stderr);
    assert!(output.status.success(), "{said}");
}

#[test]
fn every_program_is_good_c() {
    let programs = fenced(&page(PAGE), "c");
    assert_eq!(programs.len(), 2);
    for (i, program) in programs.iter().enumerate() {
        let source = file(&format!("firmware-{i}.c"), program);
        assert_compiles(compiler().arg("-fsyntax-only").arg(source));
    }
}

#[test]
fn the_example_prints_what_is_said() {
    let source = file("card.c", &fenced(&page(PAGE), "c")[0]);
    let archive = root().join("target/staticlib/libtsendurkho.a");
    let program = source.with_file_name("card");
    let mut cc = compiler();
    // Linked statically, because the emulator has no x86-64 libraries to load.
    cc.args((ARCH != "x86_64").then_some("-static"));
    assert_compiles(cc.arg(source).arg(archive).arg("-o").arg(&program));
    let run = if ARCH == "x86_64" {
        Command::new(program).output()
    } else {
        Command::new("qemu-x86_64").arg(program).output()
    };
    let output = run.expect("the example starts");
    assert!(output.status.success());
    let printed = String::from_utf8_lossy(&output.stdout);
    assert_eq!(vec![printed.into_owned()], fenced(&page(PAGE), "text"));
}

#[test]
fn the_sizes_are_those_of_the_rules() {
    let page = fs::read_to_string(root().join(PAGE)).expect("the page can be read");
    for f in 0..=5 {
        let n = 3 * f + 1;
        let known = parameters(n, f).expect("n = 3f + 1 is allowed");
        let (words, beats) = (known.words, known.settled);
        let count = if f == 0 { 0 } else { 6 };
        let row = format!(
            "\n| {f} | {n} | {words} | {} | {count} | {beats} |\n",
            2 * words
        );
        assert!(page.contains(&row), "{row}");
        let time = format!("{beats} ms");
        assert!(f == 0 || page.replace('\n', " ").contains(&time), "{time}");
    }
}

/// The archive's machine code, as text.
fn machine_code() -> PathBuf {
    let objdump = if ARCH == "x86_64" {
        "objdump"
    } else {
        "x86_64-linux-gnu-objdump"
    };
    let archive = root().join("target/staticlib/libtsendurkho.a");
    let printed = Command::new(objdump)
        .args(["-dr", "--no-show-raw-insn"])
        .arg(archive)
        .output()
        .expect("objdump starts");
    assert!(printed.status.success());
    file("archive.s", &String::from_utf8_lossy(&printed.stdout))
}

/// How many instructions a step of a rack takes at most, read from the machine code. A card is in as many split groups as f has
/// binary digits.
fn longest(code: &Path, n: u32, f: u32) -> u32 {
    let turns = u32::BITS - f.leading_zeros();
    let printed = Command::new("awk")
        .args(["-v", "start=tsendurkho_step"])
        .args(["-v", &format!("cards={n}"), "-v", &format!("turns={turns}")])
        .arg("-f")
        .arg(root().join("host/bench/longest.awk"))
        .arg(code)
        .output()
        .expect("awk starts");
    let printed = String::from_utf8_lossy(&printed.stdout);
    printed.trim().parse().expect("a number of instructions")
}

#[test]
fn no_step_is_longer_than_its_bound() {
    let code = machine_code();
    let mut racks = 0;
    for row in page(PAGE).lines().filter(|row| row.starts_with("| n = ")) {
        let numbers: String = row.chars().filter(|sign| *sign != ',').collect();
        let numbers = numbers.split(|sign: char| !sign.is_ascii_digit());
        let numbers: Vec<u32> = numbers.flat_map(str::parse).collect();
        let [n, f, _, bound] = numbers[..] else {
            panic!("{row}");
        };
        let found = longest(&code, n, f);
        assert!(0 < found && found <= bound, "{found}: {row}");
        racks += 1;
    }
    assert_eq!(racks, 9);
}
