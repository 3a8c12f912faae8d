//! Links the static library that MIRABELLEJIB_LIB names.

use std::env;
use std::path::PathBuf;

fn main() {
    println!("cargo:rerun-if-env-changed=MIRABELLEJIB_LIB");
    let library = PathBuf::from(env::var("MIRABELLEJIB_LIB").expect("MIRABELLEJIB_LIB names no library"));
    println!("cargo:rerun-if-changed={}", library.display());
    println!("cargo:rustc-link-arg={}", library.display());
}
