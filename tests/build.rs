//! Names the product's static library to the linker, for its own driver only: the reference, its
//! own tests and the other driver build without it.

use std::env;
use std::path::PathBuf;

/// The variable that names the library's folder, and the folder without it.
const VARIABLE: &str = "SECURESTORE_LIB_DIR";
const FOLDER: &str = "../target/lib";

fn main() {
    let root = PathBuf::from(env::var("CARGO_MANIFEST_DIR").expect("set by cargo"));
    println!("cargo:rerun-if-env-changed={VARIABLE}");
    let folder = env::var(VARIABLE).unwrap_or_else(|_| FOLDER.into());
    // The whole path, so that no other library of that name is taken.
    let library = root.join(folder).join("libsecurestore.a");
    println!("cargo:rerun-if-changed={}", library.display());
    println!("cargo:rustc-link-arg-bin=compare={}", library.display());
}
