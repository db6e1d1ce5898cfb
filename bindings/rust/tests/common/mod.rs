//! What the tests have in common.

use jumbetai::Error;
use std::ffi::OsString;
use std::path::{Path, PathBuf};
use std::process::Command;

const OPEN: &str = "JUMBETAI_TEST_OPEN";
const OPENED: i32 = 100;

/// A folder of its own, which goes away in the end.
pub struct Folder {
    pub path: PathBuf,
}

impl Folder {
    pub fn new(name: &str) -> Folder {
        let path = std::env::temp_dir().join(format!("jumbetai-{}-{name}", std::process::id()));
        std::fs::create_dir_all(&path).unwrap();
        Folder { path }
    }

    pub fn file(&self, name: &str) -> PathBuf {
        self.path.join(name)
    }
}

impl Drop for Folder {
    fn drop(&mut self) {
        let _gone = std::fs::remove_dir_all(&self.path);
    }
}

/// The program `site`, where JUMBETAI_SITE names it; that it is left out is said.
pub fn program() -> Option<PathBuf> {
    let program = std::env::var_os("JUMBETAI_SITE").map(PathBuf::from);
    if program.is_none() {
        eprintln!("skipped: JUMBETAI_SITE names no program");
    }
    program
}

/// What the program prints for these words.
pub fn printed(program: &Path, folder: &Path, words: &[&str]) -> String {
    let out = Command::new(program)
        .args(words)
        .current_dir(folder)
        .output()
        .unwrap();
    assert!(
        out.status.success(),
        "{words:?}: {}",
        String::from_utf8_lossy(&out.stderr)
    );
    String::from_utf8(out.stdout).unwrap()
}

/// Ends the process with what opening the file comes to, where `opened_elsewhere` began it.
#[allow(dead_code)] // not every file of tests opens one twice
pub fn open_if_asked(open: impl Fn(OsString) -> Option<Error>) {
    if let Some(path) = std::env::var_os(OPEN) {
        std::process::exit(OPENED + open(path).map_or(0, Error::status));
    }
}

/// The status by which another process opens the file: a test of this name, run in it, which calls
/// `open_if_asked`.
#[allow(dead_code)]
pub fn opened_elsewhere(test: &str, path: &Path) -> i32 {
    let out = Command::new(std::env::current_exe().unwrap())
        .args(["--exact", test])
        .env(OPEN, path)
        .output()
        .unwrap();
    out.status.code().unwrap() - OPENED
}
