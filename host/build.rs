//! Links the archives that `host/archives` writes: from the folder that the environment variable `MDLIST_LIB_DIR` names, or else from this
//! repository's target folder.

use std::env;
use std::path::PathBuf;

const FOLDER: &str = "MDLIST_LIB_DIR";
const ARCHIVES: [&str; 3] = ["mdlist", "counted", "row"];

fn folder() -> PathBuf {
    match env::var_os(FOLDER) {
        Some(named) => PathBuf::from(named),
        None => PathBuf::from(env::var_os("CARGO_MANIFEST_DIR").unwrap_or_default()).join("../target/staticlib"),
    }
}

fn main() {
    let folder = folder();
    // a relative one would be read from this package's folder, not from where cargo was called
    assert!(folder.is_absolute(), "{FOLDER} has to be an absolute path, not {}", folder.display());
    println!("cargo:rustc-link-search=native={}", folder.display());
    for name in ARCHIVES {
        let archive = folder.join(format!("lib{name}.a"));
        if !archive.exists() {
            // no failure: `cargo check` and `cargo doc` need no archive
            println!("cargo:warning={} is not there: `host/archives` writes it, {FOLDER} names its folder", archive.display());
        }
        println!("cargo:rustc-link-lib=static={name}");
        println!("cargo:rerun-if-changed={}", archive.display());
    }
    println!("cargo:rerun-if-env-changed={FOLDER}");
}
