//! Links the proved library, libgate.a: from the directory that GATE_LIB_DIR names, or from where the repository builds
//! it, or from where pkg-config knows that it is installed.

use std::path::{Path, PathBuf};
use std::process::{Command, exit};

/// Where the repository builds the library, from this package's folder.
const BUILT: &str = "../../target/staticlib";

fn main() {
    println!("cargo::rerun-if-env-changed=GATE_LIB_DIR");
    println!("cargo::rerun-if-env-changed=PKG_CONFIG_PATH");
    let named = std::env::var_os("GATE_LIB_DIR").map(PathBuf::from);
    // A directory that is named and wrong is a mistake to be told, and not one to be passed over.
    let places = match &named {
        Some(directory) => vec![directory.clone()],
        None => [Some(PathBuf::from(BUILT)), installed()].into_iter().flatten().collect(),
    };
    let Some(library) = places.iter().find_map(|place| place.join("libgate.a").canonicalize().ok()) else {
        stop(&places);
    };
    println!("cargo::rerun-if-changed={}", library.display());
    if let Some(directory) = library.parent() {
        println!("cargo::rustc-link-search=native={}", directory.display());
    }
    println!("cargo::rustc-link-lib=static=gate");
}

/// The directory of the installed library, if pkg-config is there and knows it.
fn installed() -> Option<PathBuf> {
    let output = Command::new("pkg-config").args(["--variable=libdir", "sorter_gate"]).output().ok()?;
    let directory = String::from_utf8(output.stdout).ok()?;
    (output.status.success() && !directory.trim().is_empty()).then(|| Path::new(directory.trim()).to_path_buf())
}

fn stop(places: &[PathBuf]) -> ! {
    let places: Vec<String> = places.iter().map(|place| place.display().to_string()).collect();
    println!(
        "cargo::error=there is no libgate.a in {}: build it with 'make' at the top of the repository, or set \
         GATE_LIB_DIR to the directory that has it, as a whole path",
        places.join(" or ")
    );
    exit(1);
}
