//! What the tests share: the repository's folder, its files, and the program.

#![allow(dead_code)]

use std::io::Write;
use std::path::{Path, PathBuf};
use std::process::{Command, Output, Stdio};

/// The repository.
pub fn root() -> PathBuf {
    Path::new(env!("CARGO_MANIFEST_DIR")).join("../..").canonicalize().expect("the repository")
}

/// The files of a folder of the repository with that ending, in order, as the program is given them.
pub fn files(folder: &str, ending: &str) -> Vec<String> {
    let entries = std::fs::read_dir(root().join(folder)).expect("a folder of the repository");
    let names = entries.map(|entry| entry.unwrap().file_name().to_string_lossy().to_string());
    let mut files: Vec<String> = names
        .filter(|name| name.ends_with(ending))
        .map(|name| format!("{folder}/{name}"))
        .collect();
    files.sort();
    files
}

/// The text of a file of the repository.
pub fn text(file: &str) -> String {
    std::fs::read_to_string(root().join(file)).expect("a text")
}

/// The program in the repository's folder, with nothing on its standard input.
pub fn program(args: &[&str]) -> Command {
    let mut program = Command::new(env!("CARGO_BIN_EXE_pandabrass"));
    program.args(args).current_dir(root()).stdin(Stdio::null());
    program
}

/// What the program says: output, errors, exit status.
pub fn run(args: &[&str]) -> (String, String, i32) {
    said(program(args).output().expect("the program runs"))
}

/// The same with these bytes on its standard input.
pub fn run_on(input: &[u8], args: &[&str]) -> (String, String, i32) {
    let mut program = program(args);
    program.stdin(Stdio::piped()).stdout(Stdio::piped()).stderr(Stdio::piped());
    let mut child = program.spawn().expect("the program runs");
    child.stdin.take().expect("a pipe").write_all(input).expect("the program reads");
    said(child.wait_with_output().expect("the program ends"))
}

fn said(done: Output) -> (String, String, i32) {
    let text = |bytes: Vec<u8>| String::from_utf8_lossy(&bytes).to_string();
    (text(done.stdout), text(done.stderr), done.status.code().unwrap_or(-1))
}
