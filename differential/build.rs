//! Says where the gate's libraries stand: GATE_LIBRARY, or target/staticlib of the repository.

use std::path::PathBuf;

fn main() {
    let here = PathBuf::from(std::env::var("CARGO_MANIFEST_DIR").expect("cargo sets it"));
    let folder = match std::env::var("GATE_LIBRARY") {
        Ok(folder) => PathBuf::from(folder),
        Err(_) => here.join("../target/staticlib"),
    };
    println!("cargo:rustc-link-search=native={}", folder.display());
    println!("cargo:rerun-if-env-changed=GATE_LIBRARY");
    for library in ["libcapi.a", "libprobe.a"] {
        println!("cargo:rerun-if-changed={}", folder.join(library).display());
    }
}
