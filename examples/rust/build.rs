//! Links the archive that tools/archive makes.

use std::env;
use std::path::Path;

fn main() {
    let here = env::var("CARGO_MANIFEST_DIR").unwrap();
    let folder = Path::new(&here).join("../../target/staticlib");
    println!("cargo:rustc-link-search=native={}", folder.display());
    println!("cargo:rustc-link-lib=static=hubffi");
    println!("cargo:rerun-if-changed={}", folder.join("libhubffi.a").display());
}
