//! Links libheathdapple.a from ../../crates/heathdapple/out, or from the folder that HEATHDAPPLE_LIB_DIR names.

use std::env;
use std::path::PathBuf;
use std::process::exit;

fn main() {
    println!("cargo:rerun-if-changed=build.rs");
    println!("cargo:rerun-if-env-changed=HEATHDAPPLE_LIB_DIR");
    let here = PathBuf::from(env::var_os("CARGO_MANIFEST_DIR").expect("cargo names the manifest's folder"));
    let folder = match env::var_os("HEATHDAPPLE_LIB_DIR") {
        Some(folder) if !folder.is_empty() => here.join(folder),
        _ => here.join("../../crates/heathdapple/out"),
    };
    let archive = folder.join("libheathdapple.a");
    if !archive.is_file() {
        eprintln!("error: there is no {}", archive.display());
        eprintln!("Build it by `rt lib` in the folder crates/heathdapple (harness/run does so),");
        eprintln!("or name the folder that holds libheathdapple.a in HEATHDAPPLE_LIB_DIR.");
        exit(1);
    }
    println!("cargo:rerun-if-changed={}", archive.display());
    println!("cargo:rustc-link-search=native={}", folder.display());
    println!("cargo:rustc-link-lib=static=heathdapple");
}
