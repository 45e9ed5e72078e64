//! Links libtiming.a from the folder that FENNQUALO_TIMING_FOLDER names; scripts/bench.sh sets it.

fn main() {
    let folder =
        std::env::var("FENNQUALO_TIMING_FOLDER").expect("scripts/bench.sh names the library's folder");
    println!("cargo:rustc-link-search=native={folder}");
    println!("cargo:rustc-link-lib=static=timing");
    println!("cargo:rerun-if-env-changed=FENNQUALO_TIMING_FOLDER");
    println!("cargo:rerun-if-changed={folder}/libtiming.a");
}
