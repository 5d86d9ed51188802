//! Finds the proved library, `libelasticlunr.a`: in the folder that ELASTICLUNR_LIB_DIR names, or
//! in the checkout or the unpacked release that this crate is a part of.
use std::env;
use std::path::{Path, PathBuf};

const ARCHIVE: &str = "libelasticlunr.a";
const NAMED: &str = "ELASTICLUNR_LIB_DIR";
const PLACES: [&str; 2] = ["../../out/lib", "../../lib"];

fn folder() -> PathBuf {
    if let Some(named) = env::var_os(NAMED) {
        return PathBuf::from(named);
    }
    let here = env::var_os("CARGO_MANIFEST_DIR").expect("cargo names the folder of the crate");
    let folders = PLACES.map(|place| Path::new(&here).join(place));
    let found = folders.iter().find(|folder| folder.join(ARCHIVE).is_file());
    found.unwrap_or(&folders[0]).clone()
}

fn main() {
    let folder = folder();
    let archive = folder.join(ARCHIVE);
    println!("cargo:rerun-if-changed=build.rs");
    println!("cargo:rerun-if-env-changed={NAMED}");
    println!("cargo:rerun-if-changed={}", archive.display());
    if !archive.is_file() {
        panic!(
            "there is no {}: `make lib` at the top of the repository builds it, and {NAMED} names another folder",
            archive.display()
        );
    }
    println!("cargo:rustc-link-search=native={}", folder.display());
    println!("cargo:rustc-link-lib=static=elasticlunr");
}
