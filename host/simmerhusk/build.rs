//! Links the exported calls on x86-64, if they are built. Elsewhere, or if SIMMERHUSK_BY_DRIVER is set, they are reached by way of the
//! driver.

use std::env;
use std::path::Path;

fn main() {
    let package = env::var("CARGO_MANIFEST_DIR").expect("cargo says where the package is");
    let folder = Path::new(&package).join("../../target/staticlib");
    let archive = folder.join("libexports.a");
    println!("cargo:rustc-check-cfg=cfg(linked)");
    println!("cargo:rerun-if-changed=build.rs");
    println!("cargo:rerun-if-env-changed=SIMMERHUSK_BY_DRIVER");
    println!("cargo:rerun-if-changed={}", archive.display());
    let is_x86_64 = env::var("CARGO_CFG_TARGET_ARCH").as_deref() == Ok("x86_64");
    if is_x86_64 && archive.exists() && env::var_os("SIMMERHUSK_BY_DRIVER").is_none() {
        println!("cargo:rustc-link-search=native={}", folder.display());
        println!("cargo:rustc-link-lib=static=exports");
        println!("cargo:rustc-cfg=linked");
    }
}
