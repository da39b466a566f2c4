//! Links the checker's library if `CUNDVREST_LIB_DIR` names the folder with
//! `libcundvrest.a`, and sets `cfg(cundvrest_c)` then. Without it everything
//! that needs no C library is built.

use std::path::Path;

fn main() {
    println!("cargo:rustc-check-cfg=cfg(cundvrest_c)");
    println!("cargo:rerun-if-changed=build.rs");
    println!("cargo:rerun-if-env-changed=CUNDVREST_LIB_DIR");
    let Ok(folder) = std::env::var("CUNDVREST_LIB_DIR") else {
        return;
    };
    let folder = Path::new(&folder)
        .canonicalize()
        .unwrap_or_else(|error| panic!("CUNDVREST_LIB_DIR={folder}: {error}"));
    let archive = folder.join("libcundvrest.a");
    assert!(archive.is_file(), "no file {}", archive.display());
    println!("cargo:rerun-if-changed={}", archive.display());
    println!("cargo:rustc-link-search=native={}", folder.display());
    // Not bundled: the final link takes from the archive only what is missing.
    println!("cargo:rustc-link-lib=static:-bundle=cundvrest");
    println!("cargo:rustc-cfg=cundvrest_c");
}
