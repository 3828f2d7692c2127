//! A copy of what the gate's own scripts read, in which a test puts something wrong, and the pages that people read.

pub mod pages;

use std::env;
use std::fs::{self, Permissions};
use std::os::unix::fs::PermissionsExt;
use std::path::PathBuf;
use std::process::{Command, Output};

use pages::files;
use program::root;

/// A folder of a test's own, with the scripts in it. It is removed at the end.
pub struct Copy {
    folder: PathBuf,
}

impl Copy {
    /// Only the scripts.
    pub fn of_scripts(name: &str) -> Copy {
        let folder = env::temp_dir().join(format!("gate-{}-{name}", std::process::id()));
        fs::create_dir(&folder).expect("a folder for the copy");
        let copy = Copy { folder };
        copy.take(".ci");
        copy
    }

    /// With all that is written of the code.
    pub fn of_repository(name: &str) -> Copy {
        let copy = Copy::of_scripts(name);
        for part in ["crates", "crates.txt", "docs"] {
            copy.take(part);
        }
        copy
    }

    fn take(&self, part: &str) {
        let mut found = Vec::new();
        files(&root().join(part), &mut found);
        for path in found {
            let file = path.strip_prefix(root()).expect("it is below the root");
            let to = self.folder.join(file);
            fs::create_dir_all(to.parent().expect("a file is in a folder"))
                .expect("a folder for it");
            fs::copy(&path, to).expect("the file can be copied");
        }
    }

    pub fn path(&self, file: &str) -> PathBuf {
        self.folder.join(file)
    }

    pub fn write(&self, file: &str, text: &str) {
        let path = self.path(file);
        fs::create_dir_all(path.parent().expect("a file is in a folder")).expect("a folder for it");
        fs::write(path, text).expect("the file can be written");
    }

    pub fn remove(&self, file: &str) {
        fs::remove_file(self.path(file)).expect("the file is there");
    }

    /// Puts one text for another, which the file has.
    pub fn replace(&self, file: &str, old: &str, new: &str) {
        let text = fs::read_to_string(self.path(file)).expect("the file is there");
        assert!(text.contains(old), "{file} does not have {old:?}");
        self.write(file, &text.replacen(old, new, 1));
    }

    pub fn append(&self, file: &str, more: &str) {
        let text = fs::read_to_string(self.path(file)).expect("the file is there");
        self.write(file, &(text + more));
    }

    /// Something in the place of a command.
    pub fn write_program(&self, name: &str, text: &str) {
        let file = format!("bin/{name}");
        self.write(&file, text);
        fs::set_permissions(self.path(&file), Permissions::from_mode(0o755))
            .expect("it can be made a program");
    }

    /// How a script ends here. The commands in `bin` come first.
    pub fn run(&self, script: &str) -> Ended {
        let others = env::var("PATH").unwrap_or_default();
        let path = format!("{}:{others}", self.path("bin").display());
        let mut bash = Command::new("bash");
        let output = bash.arg(self.path(script)).env("PATH", path).output();
        Ended(output.expect("the script starts"))
    }
}

impl Drop for Copy {
    fn drop(&mut self) {
        // What is left in a temporary folder does no harm.
        let _ = fs::remove_dir_all(&self.folder);
    }
}

pub struct Ended(Output);

impl Ended {
    pub fn printed(&self) -> String {
        String::from_utf8_lossy(&self.0.stdout).into_owned()
    }

    pub fn last_line(&self) -> String {
        self.printed().lines().last().unwrap_or("").to_string()
    }

    pub fn is_well(&self) -> bool {
        self.0.status.success()
    }

    fn reported(&self) -> String {
        String::from_utf8_lossy(&self.0.stderr).into_owned()
    }

    pub fn assert_passed(&self) {
        assert!(
            self.0.status.success(),
            "{}{}",
            self.printed(),
            self.reported()
        );
        assert_eq!(self.reported(), "");
    }

    /// It failed, and reported these lines and no others.
    pub fn assert_told(&self, lines: &[&str]) {
        assert_eq!(
            self.0.status.code(),
            Some(1),
            "{}{}",
            self.printed(),
            self.reported()
        );
        let reported = self.reported();
        assert_eq!(reported.lines().collect::<Vec<_>>(), lines);
    }
}
