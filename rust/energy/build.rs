//! Links `libenergy.a`, which tools/library makes in the folder out/ of crates/energy; ENERGY_LIB_DIR names another folder.

use std::env;
use std::path::PathBuf;

fn main() {
    let manifest = PathBuf::from(env::var_os("CARGO_MANIFEST_DIR").expect("cargo sets the manifest's directory"));
    let directory = match env::var_os("ENERGY_LIB_DIR") {
        Some(given) => PathBuf::from(given),
        None => manifest.join("../../crates/energy/out"),
    };
    let archive = directory.join("libenergy.a");
    println!("cargo:rerun-if-env-changed=ENERGY_LIB_DIR");
    println!("cargo:rerun-if-changed={}", archive.display());
    assert!(
        archive.is_file(),
        "there is no {}: make it by tools/library, or name its folder in ENERGY_LIB_DIR",
        archive.display()
    );
    println!("cargo:rustc-link-search=native={}", directory.display());
    println!("cargo:rustc-link-lib=static=energy");
}
