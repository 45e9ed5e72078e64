//! Tells cargo where libfennqualo.a is: in the folder that FENNQUALO_LIB names, else in `lib` of the prefix that this
//! crate is installed in (PREFIX/share/fennqualo/rust), else where the repository builds it.

use std::path::{Path, PathBuf};

fn main() {
    println!("cargo:rerun-if-env-changed=FENNQUALO_LIB");
    let here = PathBuf::from(std::env::var_os("CARGO_MANIFEST_DIR").expect("cargo sets it"));
    let is_there = |folder: &Path| folder.join("libfennqualo.a").is_file();
    let folder = match std::env::var_os("FENNQUALO_LIB") {
        Some(folder) => PathBuf::from(folder),
        None => {
            let places = [here.join("../../../lib"), here.join("../../target/library")];
            places.iter().find(|place| is_there(place)).unwrap_or(&places[0]).clone()
        }
    };
    if !is_there(&folder) {
        panic!("no libfennqualo.a in {}: set FENNQUALO_LIB to the folder that has it", folder.display());
    }
    println!("cargo:rerun-if-changed={}", folder.join("libfennqualo.a").display());
    println!("cargo:rustc-link-search=native={}", folder.display());
}
