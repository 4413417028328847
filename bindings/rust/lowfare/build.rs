//! Links the library: from the folder LOWFARE_LIB_DIR, or from what `make_lib` left in the repository.

use std::{env, path::PathBuf};

fn main() {
    println!("cargo:rerun-if-env-changed=LOWFARE_LIB_DIR");
    let built = PathBuf::from(env::var_os("CARGO_MANIFEST_DIR").expect("cargo names the folder"))
        .join("../../../out");
    let folder = env::var_os("LOWFARE_LIB_DIR").map_or(built, PathBuf::from);
    println!("cargo:rustc-link-search=native={}", folder.display());
    println!("cargo:rustc-link-lib=static=lowfare");
    println!("cargo:rerun-if-changed={}/liblowfare.a", folder.display());
}
