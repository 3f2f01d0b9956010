// Finds libcarolsedge.a: in CAROLSEDGE_LIB_DIR, or where `make library` writes it.
use std::path::PathBuf;
use std::{env, process};

fn main() {
    println!("cargo:rerun-if-env-changed=CAROLSEDGE_LIB_DIR");
    let folder = match env::var_os("CAROLSEDGE_LIB_DIR") {
        Some(folder) => PathBuf::from(folder),
        None => PathBuf::from(env::var_os("CARGO_MANIFEST_DIR").unwrap_or_default()).join("../../target/staticlib"),
    };
    let archive = folder.join("libcarolsedge.a");
    println!("cargo:rerun-if-changed={}", archive.display());
    if !archive.is_file() {
        eprintln!(
            "{} is not there: run `make library` at the top of the repository, or set CAROLSEDGE_LIB_DIR to its \
             folder",
            archive.display()
        );
        process::exit(1);
    }
    println!("cargo:rustc-link-search=native={}", folder.display());
    println!("cargo:rustc-link-lib=static=carolsedge");
}
