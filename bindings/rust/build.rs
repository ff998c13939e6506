//! Finds the static library, libexports.a: in the folder that GABLEMADDER_LIB names, or in target/staticlib of the repository.
use std::env;
use std::path::{Path, PathBuf};
use std::process::exit;

fn main() {
    println!("cargo:rerun-if-env-changed=GABLEMADDER_LIB");
    let named = env::var_os("GABLEMADDER_LIB").map(PathBuf::from);
    let folder = named.unwrap_or_else(|| Path::new(env!("CARGO_MANIFEST_DIR")).join("../../target/staticlib"));
    let Ok(library) = folder.join("libexports.a").canonicalize() else {
        eprintln!("There is no libexports.a in {}.", folder.display());
        eprintln!("Build it with `command/library` of the repository, or set GABLEMADDER_LIB to the folder that holds it.");
        exit(1);
    };
    println!("cargo:rerun-if-changed={}", library.display());
    println!("cargo:rustc-link-search=native={}", library.parent().unwrap_or(&folder).display());
    println!("cargo:rustc-link-lib=static=exports");
}
