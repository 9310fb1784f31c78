//! Links the archive of the proved library: the one that the environment variable `SPWD_LIB` names, or the one that `c/library` builds
//! for this machine.

use std::env;
use std::path::PathBuf;

fn main() {
    println!("cargo:rerun-if-changed=build.rs");
    println!("cargo:rerun-if-env-changed=SPWD_LIB");
    let archive = match env::var_os("SPWD_LIB") {
        Some(path) => PathBuf::from(path),
        None => PathBuf::from(env!("CARGO_MANIFEST_DIR")).join("../../target/c/native/libspwd_c.a"),
    };
    let (Some(folder), Some(name), true) =
        (archive.parent(), archive.file_name(), archive.is_file())
    else {
        let archive = archive.display();
        println!("cargo::error=no archive at {archive}: c/library builds it, or SPWD_LIB names it");
        return;
    };
    println!("cargo:rerun-if-changed={}", archive.display());
    println!("cargo:rustc-link-search=native={}", folder.display());
    println!(
        "cargo:rustc-link-lib=static:+verbatim={}",
        name.to_string_lossy()
    );
}
