//! How a build script links a proved archive.

use std::env;
use std::path::{Path, PathBuf};
use std::process::exit;

/// Links target/staticlib/libNAME.a of the repository, two folders above the package that is being built.
/// Ends the build with a sentence that names the missing command if the archive is not there.
pub fn archive(name: &str) {
    let file = folder().join(format!("lib{name}.a"));
    println!("cargo:rerun-if-changed={}", file.display());
    if !file.is_file() {
        eprintln!(
            "{} is missing: make it with `tests/build {name}` at the top of the repository",
            file.display()
        );
        exit(1);
    }
    println!("cargo:rustc-link-search=native={}", folder().display());
    println!("cargo:rustc-link-lib=static={name}");
}

fn folder() -> PathBuf {
    let package = env::var_os("CARGO_MANIFEST_DIR").expect("cargo names the package's folder");
    Path::new(&package).join("../../target/staticlib")
}
