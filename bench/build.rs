//! Links the libviewer.a in the folder that REBATELION_ARCHIVE names (bench/run sets it), or else ../crates/viewer/out.

use std::path::PathBuf;

fn main() {
    let folder = match std::env::var_os("REBATELION_ARCHIVE") {
        Some(named) => PathBuf::from(named),
        None => PathBuf::from(std::env::var_os("CARGO_MANIFEST_DIR").unwrap()).join("../crates/viewer/out"),
    };
    println!("cargo:rerun-if-env-changed=REBATELION_ARCHIVE");
    println!("cargo:rerun-if-changed={}", folder.join("libviewer.a").display());
    println!("cargo:rustc-link-search=native={}", folder.display());
    println!("cargo:rustc-link-lib=static=viewer");
}
