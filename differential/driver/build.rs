//! Links the load call: libbuncoyew.a of the folder that BUNCOYEW_LIB names.
use std::{env, path::Path};

fn main() {
    println!("cargo::rerun-if-env-changed=BUNCOYEW_LIB");
    let folder = env::var("BUNCOYEW_LIB").expect("BUNCOYEW_LIB names no folder of libbuncoyew.a");
    let archive = Path::new(&folder).join("libbuncoyew.a");
    assert!(
        archive.is_file(),
        "no {}: ./staticlib makes it",
        archive.display()
    );
    println!("cargo::rerun-if-changed={}", archive.display());
    println!("cargo::rustc-link-search=native={folder}");
    println!("cargo::rustc-link-lib=static=buncoyew");
}
