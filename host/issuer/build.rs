//! Finds libissuer.a: in the folder that SKS_LIB names, or where `make issuer` puts it.

use std::env;
use std::path::{Path, PathBuf};

fn main() {
    println!("cargo::rerun-if-env-changed=SKS_LIB");
    let usual = Path::new(env!("CARGO_MANIFEST_DIR")).join("../../target/staticlib");
    let folder = env::var_os("SKS_LIB").map_or(usual, PathBuf::from);
    let library = folder.join("libissuer.a");
    println!("cargo::rerun-if-changed={}", library.display());
    if library.is_file() {
        println!("cargo::rustc-link-search=native={}", folder.display());
        println!("cargo::rustc-link-lib=static=issuer");
    } else {
        println!(
            "cargo::error=there is no {}; run `make issuer` at the top of the repository, or set SKS_LIB to the folder that has libissuer.a",
            library.display()
        );
    }
}
