//! Links the proved static library, libcangrieb.a as `rt lib --cpu=x86-64` in crates/cangrieb writes it. Its folder is CANGRIEB_LIB_DIR,
//! or crates/cangrieb/out of the repository.

use std::path::PathBuf;

fn main() {
    let folder = match std::env::var_os("CANGRIEB_LIB_DIR") {
        Some(folder) => PathBuf::from(folder),
        None => PathBuf::from(env!("CARGO_MANIFEST_DIR")).join("../../crates/cangrieb/out"),
    };
    println!("cargo:rerun-if-env-changed=CANGRIEB_LIB_DIR");
    println!("cargo:rerun-if-changed={}", folder.join("libcangrieb.a").display());
    println!("cargo:rustc-link-search=native={}", folder.display());
    println!("cargo:rustc-link-lib=static=cangrieb");
    println!("cargo:libdir={}", folder.display());
}
