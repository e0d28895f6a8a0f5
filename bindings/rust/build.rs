//! Links libcapi.a, from the folder that IMMARDUZH_LIB names, an absolute path, else from where `tools/archive capi` leaves it.
use std::env;
use std::path::PathBuf;
use std::process::exit;

fn main() {
    let here = PathBuf::from(env::var_os("CARGO_MANIFEST_DIR").unwrap_or_default());
    let folder = match env::var_os("IMMARDUZH_LIB") {
        Some(folder) => PathBuf::from(folder),
        None => here.join("../../crates/capi/out"),
    };
    let archive = folder.join("libcapi.a");
    println!("cargo:rerun-if-env-changed=IMMARDUZH_LIB");
    println!("cargo:rerun-if-changed={}", archive.display());
    if !archive.is_file() {
        eprintln!(
            "there is no {}: make it with `tools/archive capi`, or name its folder in IMMARDUZH_LIB",
            archive.display()
        );
        exit(1);
    }
    println!("cargo:rustc-link-search=native={}", folder.display());
    println!("cargo:rustc-link-lib=static=capi");
}
