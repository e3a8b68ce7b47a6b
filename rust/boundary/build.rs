//! Hands the codec's library to the compiler, which puts it into this crate.

use std::env;
use std::path::PathBuf;

const LIBRARY: &str = "libcapi.a";

fn library_directory() -> PathBuf {
    match env::var_os("FLIC_LIB_DIR") {
        Some(directory) => PathBuf::from(directory),
        None => {
            let package = env::var_os("CARGO_MANIFEST_DIR").expect("cargo sets CARGO_MANIFEST_DIR");
            PathBuf::from(package).join("../../target/staticlib")
        }
    }
}

fn main() {
    let directory = library_directory();
    let library = directory.join(LIBRARY);
    println!("cargo:rerun-if-env-changed=FLIC_LIB_DIR");
    println!("cargo:rerun-if-changed=build.rs");
    println!("cargo:rerun-if-changed={}", library.display());
    if !library.is_file() {
        eprintln!(
            "{} is missing: run scripts/library first, or set FLIC_LIB_DIR to the directory that holds {LIBRARY}",
            library.display()
        );
        std::process::exit(1);
    }
    println!("cargo:rustc-link-search=native={}", directory.display());
    println!("cargo:rustc-link-lib=static=capi");
}
