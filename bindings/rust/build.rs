//! Links libeistulko.a from the folder EISTULKO_LIB, or from where library/build leaves it.

use std::env;
use std::path::{Path, PathBuf};
use std::process::exit;

fn main() {
    println!("cargo:rerun-if-env-changed=EISTULKO_LIB");
    let package = env::var_os("CARGO_MANIFEST_DIR").expect("cargo sets it");
    let built = || Path::new(&package).join("../../target/library");
    let folder = env::var_os("EISTULKO_LIB").map_or_else(built, PathBuf::from);
    let library = folder.join("libeistulko.a");
    println!("cargo:rerun-if-changed={}", library.display());
    if !library.is_file() {
        eprintln!("{} is missing: run library/build, or set EISTULKO_LIB to its folder", library.display());
        exit(1);
    }
    println!("cargo:rustc-link-search=native={}", folder.display());
    println!("cargo:rustc-link-lib=static=eistulko");
}
