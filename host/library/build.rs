//! Links the archive of the proved calls, and takes up the identity of the
//! kit that proved them.

use std::env;
use std::fs;
use std::path::Path;
use std::process::exit;

fn main() {
    let package = env::var("CARGO_MANIFEST_DIR").expect("cargo sets CARGO_MANIFEST_DIR");
    let folder = Path::new(&package).join("../lib");
    let archive = folder.join("libinterface.a");
    let kit = folder.join("kit");
    println!("cargo:rerun-if-changed={}", archive.display());
    println!("cargo:rerun-if-changed={}", kit.display());
    if !archive.is_file() {
        eprintln!("host/lib/libinterface.a is missing. Make it first: bash host/build-library.sh");
        exit(1);
    }
    let kit = fs::read_to_string(kit).unwrap_or_else(|_| "unknown".to_string());
    let kit = kit.lines().next().unwrap_or("unknown");
    println!("cargo:rustc-env=PEWGULL_KIT={kit}");
    println!("cargo:rustc-link-search=native={}", folder.display());
    println!("cargo:rustc-link-lib=static=interface");
}
