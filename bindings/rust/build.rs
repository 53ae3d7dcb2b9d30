//! Finds libhifrostum.a: in the folder that HIFROSTUM_LIB_DIR names, else where `make lib` writes it.
use std::env;
use std::path::{Path, PathBuf};

fn main() {
    println!("cargo:rerun-if-env-changed=HIFROSTUM_LIB_DIR");
    let arch = env::var("CARGO_CFG_TARGET_ARCH").unwrap_or_default();
    if arch != "x86_64" {
        panic!("libhifrostum.a is for x86-64, and this build is for {arch}: add --target x86_64-unknown-linux-gnu");
    }
    let own = Path::new(&env::var("CARGO_MANIFEST_DIR").unwrap()).join("../../target/staticlib");
    let dir = env::var("HIFROSTUM_LIB_DIR").map_or(own, PathBuf::from);
    let archive = dir.join("libhifrostum.a");
    if !archive.is_file() {
        panic!(
            "{} is not there: run `make lib`, or name its folder in HIFROSTUM_LIB_DIR",
            archive.display()
        );
    }
    println!("cargo:rerun-if-changed={}", archive.display());
    println!("cargo:rustc-link-search=native={}", dir.display());
    println!("cargo:rustc-link-lib=static=hifrostum");
}
