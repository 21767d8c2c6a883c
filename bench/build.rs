//! Compiles the C side with the flags below, and hands them to the program,
//! which prints them with its figures. Links libgcrypt.

use std::env;
use std::path::{Path, PathBuf};
use std::process::Command;

const SOURCES: [&str; 2] = ["baseline", "passage"];
const COMPILER: &str = "gcc";
const FLAGS: [&str; 4] = ["-std=c11", "-O2", "-Wall", "-Wextra"];

fn run(command: &mut Command) {
    let status = command.status().expect("the command starts");
    assert!(status.success(), "{command:?} failed");
}

/// The object of a source, in the folder.
fn compile(source: &str, folder: &Path) -> PathBuf {
    let (file, object) = (format!("{source}.c"), folder.join(format!("{source}.o")));
    println!("cargo:rerun-if-changed={file}");
    run(Command::new(COMPILER)
        .args(FLAGS)
        .args(["-c", &file, "-o"])
        .arg(&object));
    object
}

fn main() {
    println!("cargo:rerun-if-changed=baseline.h");
    let folder = env::var("OUT_DIR").expect("cargo sets OUT_DIR");
    let objects = SOURCES.map(|source| compile(source, Path::new(&folder)));
    let archive = Path::new(&folder).join("libbaseline.a");
    run(Command::new("ar").arg("rcs").arg(&archive).args(objects));
    println!("cargo:rustc-link-search=native={folder}");
    println!("cargo:rustc-link-lib=static=baseline");
    println!("cargo:rustc-link-lib=dylib=gcrypt");
    println!(
        "cargo:rustc-env=BASELINE_BUILD={COMPILER} {}",
        FLAGS.join(" ")
    );
}
