//! Links copies of an older library and of the one to measure, if the build names an older one.

use std::env;
use std::path::{Path, PathBuf};
use std::process::{exit, Command};

/// Names the older library.
const OLD_VARIABLE: &str = "TOLKJIRP_OLD_LIB";

/// Names the library that the package `tolkjirp` links; its build script tells it.
const NEW_VARIABLE: &str = "DEP_TOLKJIRP_LIBRARY";

/// The function of a library.
const FUNCTION: &str = "tolkjirp_expand";

fn main() {
    println!("cargo:rerun-if-changed=build.rs");
    println!("cargo:rerun-if-env-changed={OLD_VARIABLE}");
    println!("cargo:rustc-check-cfg=cfg(old_library)");
    let Some(old) = env::var_os(OLD_VARIABLE).filter(|path| !path.is_empty()) else {
        return;
    };
    println!("cargo:rustc-cfg=old_library");
    let new = env::var_os(NEW_VARIABLE).expect("the package tolkjirp sets it");
    link_copy(Path::new(&old), "old");
    link_copy(Path::new(&new), "new");
}

/// Links a copy of a library, its function called by another name.
fn link_copy(library: &Path, ending: &str) {
    println!("cargo:rerun-if-changed={}", library.display());
    let folder = PathBuf::from(env::var_os("OUT_DIR").expect("cargo sets it"));
    write_copy(library, &folder.join(format!("libtolkjirp_{ending}.a")), ending);
    println!("cargo:rustc-link-search=native={}", folder.display());
    println!("cargo:rustc-link-lib=static=tolkjirp_{ending}");
}

/// Writes a copy that can stand beside another: the library's function is renamed and nothing else is seen from
/// outside. All functions begin at multiples of 64 bytes, so that times don't go by where a linker happens to place
/// them.
fn write_copy(library: &Path, copy: &Path, ending: &str) {
    let status = Command::new("objcopy")
        .arg(format!("--redefine-sym={FUNCTION}={FUNCTION}_{ending}"))
        .arg(format!("--keep-global-symbol={FUNCTION}"))
        .arg(format!("--keep-global-symbol={FUNCTION}_{ending}"))
        .arg("--set-section-alignment=.text*=64")
        .args([library, copy])
        .status();
    if !status.is_ok_and(|status| status.success()) {
        eprintln!("objcopy can't copy {}.", library.display());
        eprintln!("{OLD_VARIABLE} is to be the full path of a libtolkjirp.a, and objcopy to be installed.");
        exit(1);
    }
}
