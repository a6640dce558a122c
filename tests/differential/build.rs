//! Links the static library `xiquepazo`, which `make` proves and writes.

use std::path::PathBuf;
use std::{env, process};

/// Names another folder of the static library.
const FOLDER: &str = "XIQUEPAZO_LIBRARY_FOLDER";

fn main() {
    let default = || PathBuf::from("../../target/staticlib");
    let folder = env::var_os(FOLDER).map_or_else(default, PathBuf::from);
    let Ok(archive) = folder.join("libxiquepazo.a").canonicalize() else {
        eprintln!(
            "no libxiquepazo.a in {}: run `make`",
            folder.display()
        );
        process::exit(1);
    };
    let folder = archive.parent().expect("the archive is in a folder");
    println!("cargo:rerun-if-env-changed={FOLDER}");
    println!("cargo:rerun-if-changed={}", archive.display());
    println!("cargo:rustc-link-search=native={}", folder.display());
    println!("cargo:rustc-link-lib=static=xiquepazo");
}
