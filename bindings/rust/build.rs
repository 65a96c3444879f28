//! Links the archive that `tools/archive` writes.

fn main() {
    let root = concat!(env!("CARGO_MANIFEST_DIR"), "/../..");
    println!("cargo:rustc-link-search=native={root}/target");
    println!("cargo:rustc-link-lib=static=verdaizka");
    println!("cargo:rerun-if-changed={root}/target/libverdaizka.a");
}
