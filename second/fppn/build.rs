//! Links the static library `libfppn.a`, found in the folder that FPPN_LIB names, or else in the
//! project's `target/native`, where `tools/library` makes it.

use std::env;
use std::path::PathBuf;

fn main() {
    let folder = match env::var_os("FPPN_LIB") {
        Some(folder) => PathBuf::from(folder),
        None => {
            let manifest =
                env::var_os("CARGO_MANIFEST_DIR").expect("cargo names the manifest's folder");
            PathBuf::from(manifest).join("../../target/native")
        }
    };
    println!("cargo:rerun-if-env-changed=FPPN_LIB");
    println!(
        "cargo:rerun-if-changed={}",
        folder.join("libfppn.a").display()
    );
    println!("cargo:rustc-link-search=native={}", folder.display());
    println!("cargo:rustc-link-lib=static:-bundle=fppn");
}
