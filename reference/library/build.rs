//! Links the static library that `bin/archive x86_64-linux-gnu` writes.

use std::path::Path;

fn main() {
    let root = Path::new(env!("CARGO_MANIFEST_DIR")).join("../..");
    let folder = root.join("target/archive/x86_64-linux-gnu");
    println!("cargo:rustc-link-search=native={}", folder.display());
    println!("cargo:rustc-link-lib=static=bournejade");
    println!("cargo:rerun-if-changed={}", folder.join("libbournejade.a").display());
}
