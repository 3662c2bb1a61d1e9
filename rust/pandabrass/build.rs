//! Links the static library of the proved crate `export`.

use std::path::PathBuf;
use std::process::exit;

fn main() {
    println!("cargo::rerun-if-env-changed=PANDABRASS_STATICLIB");
    let folder = folder();
    let library = folder.join("libexport.a");
    println!("cargo::rerun-if-changed={}", library.display());
    if !library.is_file() {
        eprintln!("no {}: build it first: tools/library.sh", library.display());
        exit(1);
    }
    println!("cargo::rustc-link-search=native={}", folder.display());
    println!("cargo::rustc-link-lib=static=export");
    // For the test that compiles the C example.
    println!("cargo::rustc-env=PANDABRASS_FOLDER={}", folder.display());
}

/// target/staticlib of the repository, or the folder that PANDABRASS_STATICLIB names.
fn folder() -> PathBuf {
    match std::env::var_os("PANDABRASS_STATICLIB") {
        Some(folder) => PathBuf::from(folder),
        None => PathBuf::from(env!("CARGO_MANIFEST_DIR")).join("../../target/staticlib"),
    }
}
