//! Tells where the library lies: in the folder that `CODRASK_LIB_DIR` names, else where
//! `tools/foreign --build` puts it.

use std::env;
use std::path::PathBuf;

fn main() {
    println!("cargo::rerun-if-env-changed=CODRASK_LIB_DIR");
    let told = env::var_os("CODRASK_LIB_DIR").map(PathBuf::from);
    let here = PathBuf::from(env::var_os("CARGO_MANIFEST_DIR").unwrap_or_default());
    let folder = told.unwrap_or_else(|| here.join("../../crates/vx_c/out"));
    let library = folder.join("libcodrask.a");
    println!("cargo::rerun-if-changed={}", library.display());
    if !library.is_file() {
        println!(
            "cargo::error=there is no {}: run tools/foreign --build at the top of the clone, \
             or let CODRASK_LIB_DIR name the folder that has it",
            library.display()
        );
        return;
    }
    println!("cargo::rustc-link-search=native={}", folder.display());
    println!("cargo::rustc-link-lib=static=codrask");
}
