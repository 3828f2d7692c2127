//! Finds the proved archive and links it: where an environment variable says, in the checkout,
//! or where pkg-config knows it as installed: the first of these that exists.

use std::env;
use std::path::{Path, PathBuf};
use std::process::{exit, Command};

/// Names the folder that holds the archive.
const FOLDER: &str = "TSENDURKHO_LIB_DIR";

const ARCHIVE: &str = "libtsendurkho.a";

/// The machine that the archive is for.
const MACHINE: &str = "x86_64";

fn main() {
    for variable in [FOLDER, "PKG_CONFIG_PATH"] {
        println!("cargo:rerun-if-env-changed={variable}");
    }
    match found() {
        Ok(folder) => {
            println!("cargo:rerun-if-changed={}", folder.join(ARCHIVE).display());
            println!("cargo:rustc-link-search=native={}", folder.display());
            println!("cargo:rustc-link-lib=static=tsendurkho");
        }
        Err(reason) => {
            eprintln!("tsendurkho: {reason}");
            exit(1);
        }
    }
}

/// The folder that holds the archive, or what to do where there is none.
fn found() -> Result<PathBuf, String> {
    let machine = env::var("CARGO_CFG_TARGET_ARCH").expect("cargo names the target");
    if machine != MACHINE {
        return Err(format!(
            "{ARCHIVE} is {MACHINE} code and cannot be linked for {machine}: build with \
             `--target x86_64-unknown-linux-gnu` (docs/HOST.md says how such a program is run)"
        ));
    }
    if let Some(folder) = env::var_os(FOLDER).map(PathBuf::from) {
        return if has_archive(&folder) {
            Ok(folder)
        } else {
            Err(format!(
                "{FOLDER} is {}, which has no {ARCHIVE}",
                folder.display()
            ))
        };
    }
    let folders = [Some(in_checkout()), installed()];
    let mut folders = folders.into_iter().flatten();
    folders.find(|folder| has_archive(folder)).ok_or_else(|| {
        format!(
            "there is no {ARCHIVE}: run `./tsendurkho build` in the checkout, or say where it is \
             installed, by {FOLDER}=PREFIX/lib or PKG_CONFIG_PATH=PREFIX/lib/pkgconfig"
        )
    })
}

fn has_archive(folder: &Path) -> bool {
    folder.join(ARCHIVE).is_file()
}

/// Where `./tsendurkho build` puts it.
fn in_checkout() -> PathBuf {
    let package = env::var_os("CARGO_MANIFEST_DIR").expect("cargo names the package's folder");
    PathBuf::from(package).join("../../target/staticlib")
}

/// Where `./tsendurkho install` put it, if pkg-config can say.
fn installed() -> Option<PathBuf> {
    let asked = Command::new("pkg-config")
        .args(["--variable=libdir", "tsendurkho"])
        .output();
    let answer = asked.ok().filter(|answer| answer.status.success())?;
    let folder = String::from_utf8(answer.stdout).ok()?;
    Some(PathBuf::from(folder.trim_end()))
}
