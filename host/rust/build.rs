//! Links the engine: `libzintukor.a`, made by `sh tools/library` in the repository's root.

use std::path::{Path, PathBuf};
use std::{env, process};

fn main() {
    println!("cargo:rerun-if-changed=build.rs");
    println!("cargo:rerun-if-env-changed=ZINTUKOR_LIB");
    let package = env::var_os("CARGO_MANIFEST_DIR").expect("cargo names the package's folder");
    let folder = match env::var_os("ZINTUKOR_LIB") {
        Some(folder) => PathBuf::from(folder),
        None => Path::new(&package).join("../../target/staticlib"),
    };
    let library = folder.join("libzintukor.a");
    println!("cargo:rerun-if-changed={}", library.display());
    if !library.is_file() {
        eprintln!("The engine's library is not there: {}", library.display());
        eprintln!("Run `sh tools/library` in the repository's root,");
        eprintln!("or name the folder of libzintukor.a in ZINTUKOR_LIB (an absolute path).");
        process::exit(1);
    }
    println!("cargo:rustc-link-search=native={}", folder.display());
    println!("cargo:rustc-link-lib=static=zintukor");
}
