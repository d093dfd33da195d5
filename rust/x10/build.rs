//! Tells the linker where the static library lies: in the folder that X10_LIB names, else in
//! target/staticlib of the repository, where `tools/archive` puts it.

use std::env;
use std::path::{Path, PathBuf};

fn main() {
    let folder = match env::var_os("X10_LIB") {
        Some(folder) => PathBuf::from(folder),
        None => {
            let package = env::var_os("CARGO_MANIFEST_DIR").expect("cargo sets CARGO_MANIFEST_DIR");
            Path::new(&package).join("../../target/staticlib")
        }
    };
    println!("cargo:rustc-link-search=native={}", folder.display());
    println!("cargo:rustc-link-lib=static=x10");
    println!("cargo:rerun-if-env-changed=X10_LIB");
    // A new archive has the programs that use it linked again.
    println!("cargo:rerun-if-changed={}", folder.join("libx10.a").display());
}
