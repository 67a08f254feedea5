//! Says where the library is: in the folder `STNU_LIB`, else where `tools/library make` puts it.

use std::env;
use std::path::PathBuf;

fn main() {
    let own = PathBuf::from(env::var_os("CARGO_MANIFEST_DIR").expect("cargo says where the crate is"));
    let lib = env::var_os("STNU_LIB").map_or_else(|| own.join("../../out/library/lib"), PathBuf::from);
    let archive = lib.join("libstnu.a");
    println!("cargo:rustc-link-search=native={}", lib.display());
    println!("cargo:rustc-link-lib=static=stnu");
    println!("cargo:rerun-if-env-changed=STNU_LIB");
    println!("cargo:rerun-if-changed={}", archive.display());
    assert!(
        archive.is_file(),
        "there is no {}: python3 tools/library make makes it",
        archive.display()
    );
}
