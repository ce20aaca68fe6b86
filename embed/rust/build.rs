//! Tells cargo where libembed.a is: in the folder that GUDLEMI_LIB names, or else in target/staticlib of this repository.
//! A path in GUDLEMI_LIB that is not absolute counts from this package's folder, where cargo runs this program.

use std::env;
use std::path::{Path, PathBuf};
use std::process::exit;

/// From the package's folder, where `embed/build` writes.
const DEFAULT: &str = "../../target/staticlib";

fn main() {
    println!("cargo:rerun-if-env-changed=GUDLEMI_LIB");
    println!("cargo:rerun-if-changed=build.rs");
    if !is_linux_x86_64() {
        stop("libembed.a is for x86-64 Linux with pointers of 64 bits");
    }
    let folder = env::var_os("GUDLEMI_LIB").map_or_else(|| PathBuf::from(DEFAULT), PathBuf::from);
    let Ok(archive) = folder.join("libembed.a").canonicalize() else {
        stop(&format!(
            "no libembed.a in {}: make it with `embed/build`, or name its folder in GUDLEMI_LIB",
            folder.display()
        ));
    };
    println!("cargo:rerun-if-changed={}", archive.display());
    let place = archive.parent().unwrap_or(Path::new("/"));
    println!("cargo:rustc-link-search=native={}", place.display());
    println!("cargo:rustc-link-lib=static=embed");
}

fn is_linux_x86_64() -> bool {
    let target = |name: &str| env::var(name).unwrap_or_default();
    target("CARGO_CFG_TARGET_ARCH") == "x86_64"
        && target("CARGO_CFG_TARGET_OS") == "linux"
        && target("CARGO_CFG_TARGET_POINTER_WIDTH") == "64"
}

/// Ends the build with what is wrong; cargo shows the line.
fn stop(fault: &str) -> ! {
    eprintln!("gudlemi: {fault}");
    exit(1)
}
