//! Names the folder of libpasoreum.a: PASOREUM_LIB_DIR, or crates/pasoreum/out of the repository.
use std::env;
use std::path::PathBuf;

fn main() {
    let folder = match env::var_os("PASOREUM_LIB_DIR") {
        Some(folder) => PathBuf::from(folder),
        None => PathBuf::from(env::var_os("CARGO_MANIFEST_DIR").expect("set by cargo")).join("../../crates/pasoreum/out"),
    };
    let archive = folder.join("libpasoreum.a");
    if !archive.exists() {
        println!(
            "cargo:warning=no {}: make it with `rt lib` in crates/pasoreum, or set PASOREUM_LIB_DIR",
            archive.display()
        );
    }
    println!("cargo:rustc-link-search=native={}", folder.display());
    println!("cargo:rustc-link-lib=static=pasoreum");
    println!("cargo:rerun-if-env-changed=PASOREUM_LIB_DIR");
    println!("cargo:rerun-if-changed={}", archive.display());
}
