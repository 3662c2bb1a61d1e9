//! The C examples against the header and the library: compiled, run, and their output compared.

use std::path::{Path, PathBuf};
use std::process::Command;

/// The repository's root.
fn root() -> PathBuf {
    Path::new(env!("CARGO_MANIFEST_DIR")).join("../..")
}

/// What a command prints; panics if it fails.
fn output(command: &mut Command) -> String {
    let done = command.output().unwrap_or_else(|error| panic!("{command:?}: {error}"));
    let errors = String::from_utf8_lossy(&done.stderr);
    assert!(done.status.success(), "{command:?}: {errors}");
    String::from_utf8(done.stdout).expect("text")
}

/// Compiles and runs an example; it prints what is stored beside it.
fn prints_what_is_stored(name: &str) {
    let folder = root().join("examples/c");
    let program = Path::new(env!("CARGO_TARGET_TMPDIR")).join(name);
    output(
        Command::new("cc")
            .args(["-std=c99", "-Wall", "-Wextra", "-Werror", "-pedantic", "-I"])
            .arg(root().join("include"))
            .arg(folder.join(name).with_extension("c"))
            .arg(Path::new(env!("PANDABRASS_FOLDER")).join("libexport.a"))
            .arg("-o")
            .arg(&program),
    );
    let stored = folder.join(name).with_extension("txt");
    let expected = std::fs::read_to_string(stored).expect("stored output");
    assert_eq!(output(&mut Command::new(program)), expected);
}

#[test]
fn first_run_in_c() {
    prints_what_is_stored("first_run");
}

#[test]
fn waiting_for_a_wash_in_c() {
    prints_what_is_stored("wash");
}
