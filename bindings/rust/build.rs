//! Links the static library of the proved expander.

use std::env;
use std::path::PathBuf;
use std::process::exit;

/// Names the folder of the library, if it is not the usual one.
const FOLDER_VARIABLE: &str = "TOLKJIRP_LIB_DIR";

fn main() {
    println!("cargo:rerun-if-changed=build.rs");
    println!("cargo:rerun-if-env-changed={FOLDER_VARIABLE}");
    let folder = library_folder();
    let library = folder.join("libtolkjirp.a");
    println!("cargo:rerun-if-changed={}", library.display());
    if !library.is_file() {
        eprintln!("{} is missing.", library.display());
        eprintln!("Run `bindings/archive.sh` at the repository's root,");
        eprintln!("or set {FOLDER_VARIABLE} to the folder that has libtolkjirp.a.");
        exit(1);
    }
    println!("cargo:rustc-link-search=native={}", folder.display());
    println!("cargo:rustc-link-lib=static=tolkjirp");
    println!("cargo:library={}", library.display());
}

fn library_folder() -> PathBuf {
    match env::var_os(FOLDER_VARIABLE) {
        Some(folder) => PathBuf::from(folder),
        None => {
            let manifest = env::var_os("CARGO_MANIFEST_DIR").expect("cargo sets it");
            PathBuf::from(manifest).join("../../target/staticlib")
        }
    }
}
