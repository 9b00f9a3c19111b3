//! Links the static library of the proved crate workload, which `rt lib` has written in that crate's folder.

fn main() {
    let folder = concat!(env!("CARGO_MANIFEST_DIR"), "/../crates/workload/out");
    println!("cargo:rerun-if-changed={folder}/libworkload.a");
    println!("cargo:rustc-link-search=native={folder}");
    println!("cargo:rustc-link-lib=static=workload");
}
