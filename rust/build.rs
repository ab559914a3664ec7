//! Where the archive of the proved library stands, which this package links.

use std::path::Path;

fn main() {
    println!("cargo:rerun-if-changed=build.rs");
    let package = std::env::var("CARGO_MANIFEST_DIR").expect("cargo names the package's folder");
    let folder = Path::new(&package).join("../target/host");
    let archive = folder.join("libtulfasheq.a");
    if !archive.is_file() {
        panic!("no target/host/libtulfasheq.a: rust/library.sh makes it");
    }
    println!("cargo:rerun-if-changed={}", archive.display());
    println!("cargo:rustc-link-search=native={}", folder.display());
}
