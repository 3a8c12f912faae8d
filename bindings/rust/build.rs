//! Links the static library, which stands where it was built, or in the folder that `MIRABELLEJIB_LIB` names.
use std::env;
use std::path::PathBuf;

fn main() {
    let built = PathBuf::from(env!("CARGO_MANIFEST_DIR")).join("../../crates/mirabellejib/out");
    let folder = env::var_os("MIRABELLEJIB_LIB").map_or(built, PathBuf::from);
    println!("cargo:rustc-link-search=native={}", folder.display());
    println!("cargo:rustc-link-lib=static=mirabellejib");
    println!("cargo:rerun-if-env-changed=MIRABELLEJIB_LIB");
    println!("cargo:rerun-if-changed={}", folder.join("libmirabellejib.a").display());
}
