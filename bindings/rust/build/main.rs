//! Writes the declarations of `src/raw.rs` from the header for C, and links the library's archive from
//! target/staticlib of the repository or from the folder that `SIZHBANTO_ARCHIVE` names.
mod header;
mod lists;
mod raw;

use std::env;
use std::fs;
use std::path::{Path, PathBuf};

fn main() {
    let here = PathBuf::from(env::var_os("CARGO_MANIFEST_DIR").expect("set by cargo"));
    let out = PathBuf::from(env::var_os("OUT_DIR").expect("set by cargo"));
    declare(&here.join("../c/sizhbanto.h"), &out.join("raw.rs"));
    link(&here);
}

fn declare(header: &Path, raw: &Path) {
    println!("cargo::rerun-if-changed={}", header.display());
    let text = fs::read_to_string(header).expect("bindings/c/sizhbanto.h");
    let items = header::read(&text).unwrap_or_else(|why| panic!("sizhbanto.h: {why}"));
    fs::write(raw, raw::write(&items)).expect("OUT_DIR can be written");
}

fn link(here: &Path) {
    let folder = match env::var_os("SIZHBANTO_ARCHIVE") {
        Some(folder) => PathBuf::from(folder),
        None => here.join("../../target/staticlib"),
    };
    let archive = folder.join("libsizhbanto.a");
    println!("cargo::rerun-if-env-changed=SIZHBANTO_ARCHIVE");
    println!("cargo::rerun-if-changed={}", archive.display());
    println!("cargo::rustc-link-search=native={}", folder.display());
    println!("cargo::rustc-link-lib=static=sizhbanto");
    if !archive.is_file() {
        println!(
            "cargo::error=there is no {}: run tools/build_library at the top of the repository first",
            archive.display()
        );
    }
}
