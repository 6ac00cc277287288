//! Finds libnested_gcc.a: in the folder NESTED_GCC_LIB_DIR, else in target/staticlib of the repository.

use std::env;
use std::path::PathBuf;
use std::process::exit;

fn main() {
    println!("cargo:rerun-if-env-changed=NESTED_GCC_LIB_DIR");
    let dir = match env::var_os("NESTED_GCC_LIB_DIR") {
        Some(dir) => PathBuf::from(dir),
        None => PathBuf::from(env::var_os("CARGO_MANIFEST_DIR").expect("cargo sets CARGO_MANIFEST_DIR"))
            .join("../../target/staticlib"),
    };
    let archive = dir.join("libnested_gcc.a");
    println!("cargo:rerun-if-changed={}", archive.display());
    if !archive.is_file() {
        eprintln!("there is no {}", archive.display());
        eprintln!("build it by `tools/archive` at the root of the repository,");
        eprintln!("or set NESTED_GCC_LIB_DIR to the folder that has libnested_gcc.a (an absolute path)");
        exit(1);
    }
    println!("cargo:rustc-link-search=native={}", dir.display());
    println!("cargo:rustc-link-lib=static=nested_gcc");
}
