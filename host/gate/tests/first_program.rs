//! docs/HOST.md: its first program works exactly as printed there, with the checkout's archive and with one that is installed;
//! and a build that finds no archive, or is for another machine, says what to do.

use std::env;
use std::env::consts::ARCH;
use std::fs;
use std::os::unix::fs::symlink;
use std::path::PathBuf;
use std::process::{Command, Output};

use gate::pages::{fenced, page};
use program::{launcher, root, scratch};

fn on_the_page(language: &str) -> Vec<String> {
    fenced(&page("docs/HOST.md"), language)
}

/// The page's folder `rack`, beside a folder that has the crate where a checkout has it.
struct Beside {
    folder: PathBuf,
}

impl Beside {
    fn nothing(name: &str) -> Beside {
        let beside = Beside {
            folder: scratch(name),
        };
        let [manifest, settings] = <[String; 2]>::try_from(on_the_page("toml"))
            .expect("the page has a manifest and settings for other machines");
        let [main] = <[String; 1]>::try_from(on_the_page("rust")).expect("the page has a program");
        beside.write("Cargo.toml", &manifest);
        beside.write("src/main.rs", &main);
        if ARCH != "x86_64" {
            beside.write(".cargo/config.toml", &settings);
        }
        beside
    }

    fn checkout(name: &str) -> Beside {
        let beside = Beside::nothing(name);
        let root = root().canonicalize().expect("the repository is there");
        symlink(root, beside.folder.join("tsendurkho")).expect("a link can be made");
        beside
    }

    /// Only the crate, without the checkout around it.
    fn copied_crate(name: &str) -> Beside {
        let beside = Beside::nothing(name);
        let host = beside.folder.join("tsendurkho/host");
        fs::create_dir_all(&host).expect("a folder for the crate");
        let copy = Command::new("cp")
            .arg("-R")
            .arg(root().join("host/tsendurkho"))
            .arg(host)
            .status();
        assert!(copy.expect("cp starts").success());
        beside
    }

    fn write(&self, file: &str, text: &str) {
        let path = self.folder.join("rack").join(file);
        fs::create_dir_all(path.parent().expect("a file is in a folder")).expect("a folder for it");
        fs::write(path, text).expect("the file can be written");
    }

    /// Cargo in `rack`, with nothing around it that says where an archive is or how another machine's programs are built.
    fn cargo(&self, command: &str) -> Command {
        let mut cargo = Command::new(env::var_os("CARGO").expect("cargo runs this test"));
        cargo
            .args([command, "--quiet", "--offline"])
            .current_dir(self.folder.join("rack"))
            .env("CARGO_TARGET_DIR", self.folder.join("target"))
            .env("PKG_CONFIG_LIBDIR", "")
            .env_remove("PKG_CONFIG_PATH")
            .env_remove("TSENDURKHO_LIB_DIR");
        for setting in ["LINKER", "RUNNER", "RUSTFLAGS"] {
            cargo.env_remove(format!("CARGO_TARGET_X86_64_UNKNOWN_LINUX_GNU_{setting}"));
        }
        cargo
    }
}

/// Ends well, and prints what the page says.
fn assert_prints_what_is_said(cargo: &mut Command) {
    let Output {
        status,
        stdout,
        stderr,
    } = cargo.output().expect("cargo starts");
    assert!(status.success(), "{}", String::from_utf8_lossy(&stderr));
    assert_eq!(vec![String::from_utf8_lossy(&stdout)], on_the_page("text"));
}

/// Ends with an error of the crate's own that has these words, and not with the linker's.
fn assert_fails_with(cargo: &mut Command, words: &str) {
    let Output { status, stderr, .. } = cargo.output().expect("cargo starts");
    let said = String::from_utf8_lossy(&stderr);
    assert!(!status.success(), "{said}");
    let own = said
        .lines()
        .find(|line| line.trim_start().starts_with("tsendurkho: "));
    assert!(own.map_or(false, |line| line.contains(words)), "{said}");
    assert!(!said.contains("linking with"), "{said}");
}

#[test]
fn it_works_beside_a_checkout() {
    assert_prints_what_is_said(&mut Beside::checkout("beside-checkout").cargo("run"));
}

#[test]
fn it_works_with_what_is_installed() {
    let beside = Beside::copied_crate("beside-copy");
    let prefix = beside.folder.join("usr");
    let install = Command::new(launcher())
        .arg("install")
        .arg(&prefix)
        .output();
    assert!(install.expect("the launcher starts").status.success());
    let known = prefix.join("lib/pkgconfig");
    assert_prints_what_is_said(beside.cargo("run").env("PKG_CONFIG_PATH", known));
    let lib = prefix.join("lib");
    assert_prints_what_is_said(beside.cargo("run").env("TSENDURKHO_LIB_DIR", lib));
}

#[test]
fn a_build_without_an_archive_says_what_to_run() {
    let beside = Beside::copied_crate("beside-nothing");
    assert_fails_with(
        &mut beside.cargo("build"),
        "run `./tsendurkho build` in the checkout",
    );
    let elsewhere = beside.folder.display().to_string();
    let mut named = beside.cargo("build");
    named.env("TSENDURKHO_LIB_DIR", &elsewhere);
    assert_fails_with(
        &mut named,
        &format!("TSENDURKHO_LIB_DIR is {elsewhere}, which has no libtsendurkho.a"),
    );
}

#[test]
fn a_build_for_another_machine_says_how() {
    let beside = Beside::checkout("beside-other");
    let mut other = beside.cargo("build");
    other.args(["--target", "aarch64-unknown-linux-gnu"]);
    assert_fails_with(&mut other, "build with `--target x86_64-unknown-linux-gnu`");
}
