//! Links the proved archive for the target that is built for. `tools/archive TARGET` writes it below the repository's root;
//! WHEEL_ARCHIVE names another folder that has it.

use std::env;
use std::path::PathBuf;

fn main() {
    println!("cargo::rerun-if-env-changed=WHEEL_ARCHIVE");
    let told = |name| env::var(name).expect("cargo tells it");
    let target = told("TARGET");
    let folder = match env::var_os("WHEEL_ARCHIVE") {
        Some(folder) => PathBuf::from(folder),
        None => PathBuf::from(told("CARGO_MANIFEST_DIR"))
            .join("../target/archive")
            .join(&target),
    };
    let archive = folder.join("libboard.a");
    println!("cargo::rerun-if-changed={}", archive.display());
    if !archive.is_file() {
        println!(
            "cargo::error=there is no {}: make it with `tools/archive {target}` in the repository's root, or name its folder in WHEEL_ARCHIVE",
            archive.display()
        );
        return;
    }
    println!("cargo::rustc-link-search=native={}", folder.display());
    println!("cargo::rustc-link-lib=static=board");
}
