//! Tells the linker where the proved library's lines are: in a second library, beside
//! the one that the crate `nechwalu` links.

use std::path::PathBuf;

fn main() {
    println!("cargo:rerun-if-env-changed=NECHWALU_LIB");
    if std::env::var_os("CARGO_FEATURE_PROVED").is_none() {
        return;
    }
    let Some(directory) = std::env::var_os("NECHWALU_LIB").map(PathBuf::from) else {
        fail("the feature `proved` needs NECHWALU_LIB, the directory of libmonitor.a and libline_call.a");
    };
    // Relative paths would be taken from this crate's folder, not the caller's.
    if !directory.is_absolute() {
        fail("NECHWALU_LIB must be an absolute path");
    }
    let library = directory.join("libline_call.a");
    if !library.is_file() {
        fail(&format!("NECHWALU_LIB has no libline_call.a: {}", library.display()));
    }
    println!("cargo:rerun-if-changed={}", library.display());
    println!("cargo:rustc-link-search=native={}", directory.display());
    println!("cargo:rustc-link-lib=static=line_call");
}

fn fail(message: &str) -> ! {
    eprintln!("benchmark: {message}");
    std::process::exit(1)
}
