//! Links the proved static library: in the folder SEMDUOLI_LIBRARY, or target/staticlib of the repository.

use std::path::PathBuf;

fn main() {
    println!("cargo:rerun-if-env-changed=SEMDUOLI_LIBRARY");
    let usual = PathBuf::from(env!("CARGO_MANIFEST_DIR")).join("../../target/staticlib");
    let folder = std::env::var_os("SEMDUOLI_LIBRARY").map_or(usual, PathBuf::from);
    // libraries of commits up to F-7 are called register
    let names = ["semduoli", "register"];
    let name =
        names.into_iter().find(|name| folder.join(format!("lib{name}.a")).is_file()).unwrap_or(names[0]);
    let library = folder.join(format!("lib{name}.a"));
    println!("cargo:rerun-if-changed={}", library.display());
    if !library.is_file() {
        eprintln!("{} is missing: run examples/library in the repository's root,", library.display());
        eprintln!("or set SEMDUOLI_LIBRARY to the folder that has libsemduoli.a");
        std::process::exit(1);
    }
    println!("cargo:rustc-link-search=native={}", folder.display());
    println!("cargo:rustc-link-lib=static={name}");
}
