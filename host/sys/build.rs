//! Points the linker at the proved static libraries: the executive's, and the reader's of plans as text.

use std::env;
use std::path::PathBuf;

fn main() {
    println!("cargo::rerun-if-env-changed=SAMBLOKUR_LIB_DIR");
    let folder = env::var_os("SAMBLOKUR_LIB_DIR").map_or_else(beside_the_host, PathBuf::from);
    println!("cargo::rustc-link-search=native={}", folder.display());
    for library in ["samblokur", "samblokur_text"] {
        println!("cargo::rerun-if-changed={}", folder.join(format!("lib{library}.a")).display());
        println!("cargo::rustc-link-lib=static={library}");
    }
}

/// Where tools/libraries puts them, beside host/: those for x86-64 into target/staticlib, those for another machine into target/native.
fn beside_the_host() -> PathBuf {
    let here = env::var_os("CARGO_MANIFEST_DIR").map_or_else(PathBuf::new, PathBuf::from);
    let is_x86 = env::var_os("CARGO_CFG_TARGET_ARCH").is_some_and(|name| name == "x86_64");
    here.join("../../target").join(if is_x86 { "staticlib" } else { "native" })
}
