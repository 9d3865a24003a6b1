//! Links the proved library, libgate.a, from the directory that GATE_LIB_DIR names.

use std::path::PathBuf;
use std::process::exit;

fn main() {
    println!("cargo::rerun-if-env-changed=GATE_LIB_DIR");
    let Some(directory) = std::env::var_os("GATE_LIB_DIR").map(PathBuf::from) else {
        stop("GATE_LIB_DIR is not set");
    };
    let Ok(library) = directory.join("libgate.a").canonicalize() else {
        stop(&format!("there is no libgate.a in {}", directory.display()));
    };
    println!("cargo::rerun-if-changed={}", library.display());
    if let Some(directory) = library.parent() {
        println!("cargo::rustc-link-search=native={}", directory.display());
    }
    println!("cargo::rustc-link-lib=static=gate");
}

fn stop(reason: &str) -> ! {
    println!(
        "cargo::error={reason}: set GATE_LIB_DIR to the directory of the built library libgate.a, as a whole path"
    );
    eprintln!("{reason}: set GATE_LIB_DIR to the directory of the built library libgate.a, as a whole path");
    exit(1);
}
