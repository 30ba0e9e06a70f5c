//! Links `libvmsa.a` into the binary. It is looked for in the folder named
//! by `VMSA_LIB` (taken from this package's folder if relative), or else in
//! `../target/lib/ARCH`.
//!
//! The archive goes to the binary alone: a `rustc-link-lib` line would hand
//! it to the lib target too, and then the tests could not be built without
//! it. It also comes last, behind the standard library, because a static
//! library made by rustc brings a runtime of its own; where both define a
//! symbol, such as the panic handler, the first one, ours, is to be taken.

use std::env;
use std::path::Path;

fn main() {
    let package = env::var("CARGO_MANIFEST_DIR").expect("cargo names the package's folder");
    let arch = env::var("CARGO_CFG_TARGET_ARCH").expect("cargo names the architecture");
    let folder = env::var("VMSA_LIB").unwrap_or_else(|_| format!("../target/lib/{arch}"));
    let archive = Path::new(&package).join(folder).join("libvmsa.a");

    println!("cargo:rustc-link-arg-bins={}", archive.display());
    if env::var("CARGO_CFG_TARGET_OS").is_ok_and(|system| system == "linux") {
        println!("cargo:rustc-link-arg-bins=-Wl,--allow-multiple-definition");
    }

    println!("cargo:rerun-if-changed={}", archive.display());
    println!("cargo:rerun-if-env-changed=VMSA_LIB");
}
