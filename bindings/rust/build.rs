//! Links libmls_check.a, which `tools/library` makes. MLS_CHECK_LIB is the folder that it is in.

use std::path::PathBuf;

fn main() {
    let folder = match std::env::var_os("MLS_CHECK_LIB") {
        Some(folder) => PathBuf::from(folder),
        None => PathBuf::from(env!("CARGO_MANIFEST_DIR")).join("../../build"),
    };
    println!("cargo:rerun-if-env-changed=MLS_CHECK_LIB");
    println!("cargo:rerun-if-changed={}", folder.join("libmls_check.a").display());
    println!("cargo:rustc-link-search=native={}", folder.display());
    println!("cargo:rustc-link-lib=static=mls_check");
}
