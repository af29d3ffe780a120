//! Links the static library, which lies in the folder that `GEDTOOL_LIB_DIR` names, or else in `ffi/c/out`.

use std::env;
use std::path::PathBuf;
use std::process::exit;

fn main() {
    println!("cargo:rerun-if-env-changed=GEDTOOL_LIB_DIR");
    let folder = env::var_os("GEDTOOL_LIB_DIR").map_or_else(|| PathBuf::from("../c/out"), PathBuf::from);
    let archive = folder.join("libgedtool.a");
    let archive = archive.canonicalize().unwrap_or_else(|error| {
        eprintln!("{}: {error}; `make -C ffi/c` makes it, or GEDTOOL_LIB_DIR names its folder", archive.display());
        exit(1)
    });
    println!("cargo:rerun-if-changed={}", archive.display());
    println!("cargo:rustc-link-search=native={}", archive.with_file_name("").display());
    println!("cargo:rustc-link-lib=static=gedtool");
}
