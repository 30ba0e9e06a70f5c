//! Links `libvmsa.a` and `libkernels.a`. They are looked for in the folders
//! named by `VMSA_LIB` and `VMSA_KERNELS` (taken from this package's folder if
//! relative), or else in `../target/lib/ARCH` and `../target/staticlib`.

use std::env;
use std::path::Path;

/// Links a library from the folder that a variable names, or else a default.
fn link(library: &str, variable: &str, default: &str) {
    let package = env::var("CARGO_MANIFEST_DIR").expect("cargo names the package's folder");
    let folder = env::var(variable).unwrap_or_else(|_| default.to_string());
    let folder = Path::new(&package).join(folder);
    let archive = folder.join(format!("lib{library}.a"));

    println!("cargo:rerun-if-env-changed={variable}");
    println!("cargo:rerun-if-changed={}", archive.display());
    println!("cargo:rustc-link-search=native={}", folder.display());
    println!("cargo:rustc-link-lib=static={library}");
}

fn main() {
    let arch = env::var("CARGO_CFG_TARGET_ARCH").expect("cargo names the architecture");

    println!("cargo:rerun-if-changed=build.rs");
    link("vmsa", "VMSA_LIB", &format!("../target/lib/{arch}"));
    link("kernels", "VMSA_KERNELS", "../target/staticlib");
}
