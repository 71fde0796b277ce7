//! Says where `libhost_benchmark.a` is, which `make bench` builds first, to `sides`,
//! which links it. Where it is missing the benchmark is built all the same, and
//! says so when it is run.

use std::path::Path;

fn main() {
    let folder = Path::new(env!("CARGO_MANIFEST_DIR")).join("../target/staticlib");
    let library = folder.join("libhost_benchmark.a");
    println!("cargo::rustc-check-cfg=cfg(benchmark_library)");
    println!("cargo::rerun-if-changed={}", library.display());
    if library.is_file() {
        println!("cargo::rustc-cfg=benchmark_library");
        println!("cargo::rustc-link-search=native={}", folder.display());
    }
}
