//! Links the proved archive, which `host/archive` writes. COLUMN_KINDS_LIB names its folder;
//! without it the folder is target/staticlib of this repository.
use std::env;
use std::path::PathBuf;

fn main() {
    println!("cargo:rerun-if-env-changed=COLUMN_KINDS_LIB");
    let here = PathBuf::from(env::var("CARGO_MANIFEST_DIR").expect("cargo sets it"));
    let folder = env::var("COLUMN_KINDS_LIB").map_or(here.join("../../target/staticlib"), PathBuf::from);
    let archive = folder.join("libcolumn_kinds.a");
    if !archive.is_file() {
        panic!("there is no {}; host/archive writes it", archive.display());
    }
    println!("cargo:rerun-if-changed={}", archive.display());
    println!("cargo:rustc-link-search=native={}", folder.display());
    println!("cargo:rustc-link-lib=static=column_kinds");
}
