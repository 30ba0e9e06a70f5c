//! Links `libvmsa.a`. It is looked for in the folder named by `VMSA_LIB`
//! (taken from this package's folder if relative), or else in
//! `../../target/lib/ARCH`, where `bindings/library` puts it.
//!
//! Where it has not been made yet, that is a warning: `cargo check` and
//! `cargo doc` link nothing and go on, and a build ends in rustc's error for
//! the library. Where there is none for the target, it is an error at once,
//! unless `VMSA_LIB` names one.
//!
//! The archive is bundled into this crate, so that tests, doc tests and every
//! crate that depends on this one get it without a build script of their own.
//! Its objects hold the functions of `vmsa.h` and no runtime; nothing in them is
//! defined a second time by the standard library.

use std::env;
use std::path::Path;
use std::process::exit;

/// What cargo says of the package or the target.
fn cargo(name: &str) -> String {
    env::var(name).unwrap_or_default()
}

/// Whether there is a library for the target: ELF objects for two
/// architectures.
fn has_library() -> bool {
    let arch = cargo("CARGO_CFG_TARGET_ARCH");
    let elf = cargo("CARGO_CFG_TARGET_VENDOR") != "apple"
        && !["windows", "uefi"].contains(&cargo("CARGO_CFG_TARGET_OS").as_str());
    ["x86_64", "aarch64"].contains(&arch.as_str())
        && cargo("CARGO_CFG_TARGET_POINTER_WIDTH") == "64"
        && cargo("CARGO_CFG_TARGET_ENDIAN") == "little"
        && elf
}

/// The folder of the library, as it was named.
fn folder() -> String {
    if let Ok(folder) = env::var("VMSA_LIB") {
        return folder;
    }
    if !has_library() {
        eprintln!(
            "vmsa has no library for {}: there is one for x86_64 and one for \
             aarch64, 64-bit, little-endian, ELF (VMSA_LIB names the folder of another)",
            cargo("TARGET")
        );
        exit(1);
    }
    format!("../../target/lib/{}", cargo("CARGO_CFG_TARGET_ARCH"))
}

fn main() {
    println!("cargo:rerun-if-changed=build.rs");
    println!("cargo:rerun-if-env-changed=VMSA_LIB");

    let folder = Path::new(&cargo("CARGO_MANIFEST_DIR")).join(folder());
    let archive = folder.join("libvmsa.a");
    println!("cargo:rerun-if-changed={}", archive.display());
    if !archive.is_file() {
        println!(
            "cargo:warning=no library at {}: make it with bindings/library, \
             or name its folder in VMSA_LIB",
            archive.display()
        );
    }
    println!("cargo:rustc-link-search=native={}", folder.display());
    println!("cargo:rustc-link-lib=static=vmsa");
}
