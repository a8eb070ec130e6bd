//! Links with libunixvol.a: the one in the folder UNIXVOL_LIB, else the one that `make library` builds.

use std::path::Path;

fn main() {
    let built = Path::new(env!("CARGO_MANIFEST_DIR")).join("../out");
    let folder = std::env::var("UNIXVOL_LIB").unwrap_or_else(|_| built.display().to_string());
    println!("cargo:rerun-if-env-changed=UNIXVOL_LIB");
    println!("cargo:rerun-if-changed={folder}/libunixvol.a");
    println!("cargo:rustc-link-search=native={folder}");
    println!("cargo:rustc-link-lib=static=unixvol");
}
