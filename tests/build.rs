//! Links the proved archive, ../crates/viewer/out/libviewer.a, or the one in the folder that REBATELION_ARCHIVE names.
//!
//! The archive is for x86-64. Where it is for another machine than the checks are built for, it is not linked: the checks
//! then reach it through the program in bridge/ (see src/archive.rs).

use std::path::PathBuf;

fn main() {
    let folder = match std::env::var_os("REBATELION_ARCHIVE") {
        Some(named) => PathBuf::from(named),
        None => PathBuf::from(std::env::var_os("CARGO_MANIFEST_DIR").unwrap()).join("../crates/viewer/out"),
    };
    let archive = folder.join("libviewer.a");
    println!("cargo:rerun-if-env-changed=REBATELION_ARCHIVE");
    println!("cargo:rerun-if-changed={}", archive.display());
    println!("cargo:rustc-check-cfg=cfg(linked)");
    let bytes = std::fs::read(&archive).unwrap_or_else(|e| panic!("{}: {e} (rt lib there makes it)", archive.display()));
    if machine(&bytes) == Some(std::env::var("CARGO_CFG_TARGET_ARCH").unwrap().as_str()) {
        println!("cargo:rustc-cfg=linked");
        println!("cargo:rustc-link-search=native={}", folder.display());
        println!("cargo:rustc-link-lib=static=viewer");
    }
}

/// The machine that the archive's first object file is for.
fn machine(archive: &[u8]) -> Option<&'static str> {
    let elf = archive.windows(4).position(|w| w == b"\x7fELF")?;
    match archive.get(elf + 18)? {
        62 => Some("x86_64"),
        183 => Some("aarch64"),
        _ => None,
    }
}
