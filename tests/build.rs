//! Says where `libcouplingnut.a` is to `library`, which links it. Where it is
//! missing the other tests are built and run all the same.

use std::path::{Path, PathBuf};

fn main() {
    let built = Path::new(env!("CARGO_MANIFEST_DIR")).join("../target/staticlib");
    let folder = std::env::var_os("HOST_LIB_DIR").map_or(built, PathBuf::from);
    let library = folder.join("libcouplingnut.a");
    println!("cargo::rustc-check-cfg=cfg(host_library)");
    println!("cargo::rerun-if-env-changed=HOST_LIB_DIR");
    println!("cargo::rerun-if-changed={}", library.display());
    if library.exists() {
        println!("cargo::rustc-cfg=host_library");
        println!("cargo::rustc-link-search=native={}", folder.display());
    }
}
