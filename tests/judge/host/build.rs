//! Links the archives that the variables SM3ROWS_LIB and PASSAGE_LIB name, and
//! OpenSSL's libcrypto. Programs that depend on this crate are linked with all.

use std::path::Path;
use std::{env, fs};

fn main() {
    let folder = env::var("OUT_DIR").expect("cargo sets OUT_DIR");
    println!("cargo:rustc-link-search=native={folder}");
    link("PASSAGE_LIB", "passage_c", Path::new(&folder));
    link("SM3ROWS_LIB", "sm3rows", Path::new(&folder));
    println!("cargo:rustc-link-lib=dylib=crypto");
}

/// Links the archive that the variable names, through a copy in the folder:
/// the linker looks for a name, and the folder of one archive may hold another
/// version of the other.
fn link(variable: &str, name: &str, folder: &Path) {
    println!("cargo:rerun-if-env-changed={variable}");
    let given = env::var(variable).unwrap_or_else(|_| panic!("{variable} must name an archive"));
    let archive = fs::canonicalize(&given).unwrap_or_else(|error| panic!("{given}: {error}"));
    println!("cargo:rerun-if-changed={}", archive.display());
    let copy = folder.join(format!("lib{name}.a"));
    fs::copy(&archive, copy).unwrap_or_else(|error| panic!("{given}: {error}"));
    println!("cargo:rustc-link-lib=static={name}");
}
