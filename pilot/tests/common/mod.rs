//! The program as a user has it.
#![allow(dead_code)] // each test file uses a part of it

use std::fs::{self, File};
use std::path::{Path, PathBuf};
use std::process::{Command, Output, Stdio};

pub fn root() -> PathBuf {
    Path::new(env!("CARGO_MANIFEST_DIR")).join("..")
}

/// `pilot` in the repository's root, with no input.
pub fn pilot(words: &[&str]) -> Command {
    let mut command = Command::new(env!("CARGO_BIN_EXE_pilot"));
    command.args(words).current_dir(root()).stdin(Stdio::null());
    command
}

pub struct Done {
    pub status: i32,
    pub out: String,
    pub err: String,
}

pub fn done(output: Output) -> Done {
    let text = |bytes| String::from_utf8(bytes).unwrap();
    Done { status: output.status.code().unwrap(), out: text(output.stdout), err: text(output.stderr) }
}

pub fn run(words: &[&str]) -> Done {
    done(pilot(words).output().unwrap())
}

/// With a text on standard input.
pub fn fed(words: &[&str], input: &str) -> Done {
    let path = scratch("input");
    fs::write(&path, input).unwrap();
    done(pilot(words).stdin(File::open(path).unwrap()).output().unwrap())
}

/// A file of this test's own.
pub fn scratch(name: &str) -> PathBuf {
    let thread = std::thread::current().name().unwrap_or("main").replace("::", "-");
    Path::new(env!("CARGO_TARGET_TMPDIR")).join(format!("{}-{thread}-{name}", std::process::id()))
}

/// The lists of a folder, in the order of their names.
pub fn lists(folder: &str) -> Vec<PathBuf> {
    let files = fs::read_dir(root().join(folder)).unwrap().map(|e| e.unwrap().path());
    let mut lists: Vec<PathBuf> = files.filter(|p| p.extension().is_some_and(|e| e == "calls")).collect();
    lists.sort();
    assert!(!lists.is_empty(), "{folder}");
    lists
}
