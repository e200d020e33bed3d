//! Finds the archive that tools/make_archive makes and links it.
use std::env;
use std::path::PathBuf;

fn main() {
    println!("cargo:rerun-if-env-changed=SAVRUNTE_ARCHIVE_DIR");
    let dir = match env::var_os("SAVRUNTE_ARCHIVE_DIR") {
        Some(dir) => PathBuf::from(dir),
        None => PathBuf::from(env::var_os("CARGO_MANIFEST_DIR").expect("cargo sets this")).join("../../target/staticlib"),
    };
    let archive = dir.join("libsavrunte.a");
    println!("cargo:rerun-if-changed={}", archive.display());
    if !archive.exists() {
        panic!("{} is missing: run tools/make_archive at the repository's top first", archive.display());
    }
    println!("cargo:rustc-link-search=native={}", dir.display());
    println!("cargo:rustc-link-lib=static=savrunte");
}
