//! Links the proved library, which `host/build` makes.
use std::path::PathBuf;

fn main() {
    // Where the package is now, and not where this was built.
    let package = PathBuf::from(std::env::var_os("CARGO_MANIFEST_DIR").expect("cargo says where the package is"));
    let folder = package.join("../target/staticlib");
    let archive = folder.join("libwave_c.a");
    println!("cargo:rerun-if-changed={}", archive.display());
    println!("cargo:rustc-link-search=native={}", folder.display());
    println!("cargo:rustc-link-lib=static=wave_c");
    if !archive.exists() {
        println!("cargo:warning=the proved library is missing: host/build makes it");
    }
}
