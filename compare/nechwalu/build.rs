//! Tells the linker where the proved library is.

use std::path::PathBuf;

fn main() {
    println!("cargo:rerun-if-env-changed=NECHWALU_LIB");
    if std::env::var_os("CARGO_FEATURE_PROVED").is_none() {
        return;
    }
    let Some(directory) = std::env::var_os("NECHWALU_LIB").map(PathBuf::from) else {
        fail("the feature `proved` needs NECHWALU_LIB, the directory of libmonitor.a");
    };
    // Relative paths would be taken from this crate's folder, not the caller's.
    if !directory.is_absolute() {
        fail("NECHWALU_LIB must be an absolute path");
    }
    let library = directory.join("libmonitor.a");
    if !library.is_file() {
        fail(&format!("NECHWALU_LIB has no libmonitor.a: {}", library.display()));
    }
    println!("cargo:rerun-if-changed={}", library.display());
    println!("cargo:rustc-link-search=native={}", directory.display());
    println!("cargo:rustc-link-lib=static=monitor");
}

fn fail(message: &str) -> ! {
    eprintln!("nechwalu: {message}");
    std::process::exit(1)
}
