//! Links `libanswers.a` and `libanswers_asked.a`, which `tools/libraries` writes: those in the
//! folder that TEZHUKOR_LIB names, or in `target/staticlib` of this repository.

use std::path::PathBuf;

fn main() {
    println!("cargo:rerun-if-env-changed=TEZHUKOR_LIB");
    let here = PathBuf::from(std::env::var("CARGO_MANIFEST_DIR").expect("cargo names the folder"));
    let named = std::env::var_os("TEZHUKOR_LIB").map(PathBuf::from);
    let folder = named.unwrap_or_else(|| here.join("../target/staticlib"));
    println!("cargo:rustc-link-search=native={}", folder.display());
    for name in ["answers", "answers_asked"] {
        let library = folder.join(format!("lib{name}.a"));
        println!("cargo:rerun-if-changed={}", library.display());
        if !library.is_file() {
            println!(
                "cargo:warning={} is missing: run `bash tools/libraries` first",
                library.display()
            );
        }
        println!("cargo:rustc-link-lib=static={name}");
    }
}
