//! Finds the archive of the library, and says what to do where it is not there.

use std::env;
use std::path::PathBuf;
use std::process::exit;

fn main() {
    println!("cargo:rerun-if-env-changed=BITS_LIB_DIR");
    let named = env::var_os("BITS_LIB_DIR").map(PathBuf::from);
    let folder =
        named.unwrap_or_else(|| PathBuf::from(env!("CARGO_MANIFEST_DIR")).join("../../out"));
    let archive = folder.join("libbits.a");
    println!("cargo:rerun-if-changed={}", archive.display());
    if !archive.is_file() {
        eprintln!("{} is not there.", archive.display());
        eprintln!("Run ./bits-lib at the top of the repository, which makes it in out/; or let the environment");
        eprintln!("variable BITS_LIB_DIR be the folder, as a whole path, that libbits.a was installed in.");
        exit(1);
    }
    println!("cargo:rustc-link-search=native={}", folder.display());
    println!("cargo:rustc-link-lib=static=bits");
}
