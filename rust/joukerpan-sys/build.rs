//! Links the engine's archive, which `tools/build embed` writes to target/staticlib.

use std::env;
use std::path::{Path, PathBuf};

/// The folder that holds the archive: JOUKERPAN_LIB_DIR, or the repository's target/staticlib.
fn archive_folder() -> PathBuf {
    match env::var_os("JOUKERPAN_LIB_DIR") {
        Some(folder) => folder.into(),
        None => Path::new(&env::var_os("CARGO_MANIFEST_DIR").expect("cargo sets it")).join("../../target/staticlib"),
    }
}

/// The library to link. Where there is none, its name says so: `cargo check` and `cargo doc` link nothing and
/// go on, and a build ends with the one line that no library of that name was found.
fn library(archive: &Path) -> &'static str {
    let target = env::var("TARGET").unwrap_or_default();
    if !(target.starts_with("x86_64-") && target.contains("-linux-")) {
        "embed (the engine's archive is for x86-64 Linux alone)"
    } else if !archive.is_file() {
        "embed (run 'tools/build embed' at the repository's root, or name libembed.a's folder in JOUKERPAN_LIB_DIR)"
    } else {
        "embed"
    }
}

fn main() {
    println!("cargo:rerun-if-env-changed=JOUKERPAN_LIB_DIR");
    let folder = archive_folder();
    let archive = folder.join("libembed.a");
    println!("cargo:rerun-if-changed={}", archive.display());
    println!("cargo:rustc-link-search=native={}", folder.display());
    println!("cargo:rustc-link-lib=static={}", library(&archive));
}
