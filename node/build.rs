//! Links the proved static library: in the folder SEMDUOLI_LIB, or target/staticlib of the repository.

use std::path::PathBuf;

fn main() {
    println!("cargo:rerun-if-env-changed=SEMDUOLI_LIB");
    let usual = PathBuf::from(env!("CARGO_MANIFEST_DIR")).join("../target/staticlib");
    let folder = std::env::var_os("SEMDUOLI_LIB").map_or(usual, PathBuf::from);
    let library = folder.join("libsemduoli.a");
    println!("cargo:rerun-if-changed={}", library.display());
    if !library.is_file() {
        eprintln!("{} is missing: run examples/library in the repository's root,", library.display());
        eprintln!("or set SEMDUOLI_LIB to the folder that has libsemduoli.a");
        std::process::exit(1);
    }
    println!("cargo:rustc-link-search=native={}", folder.display());
    println!("cargo:rustc-link-lib=static=semduoli");
}
