//! Links `libiolite.a`, which `make -C bindings/c` leaves in `bindings/c/out`. `IOLITE_LIB` names another folder.
use std::env;
use std::path::PathBuf;

fn main() {
    println!("cargo:rerun-if-env-changed=IOLITE_LIB");
    let beside = PathBuf::from(env::var_os("CARGO_MANIFEST_DIR").expect("cargo sets it")).join("../c/out");
    let folder = env::var_os("IOLITE_LIB").map_or(beside, PathBuf::from);
    let archive = folder.join("libiolite.a");
    if !archive.is_file() {
        panic!("{} is missing: run make -C bindings/c, or set IOLITE_LIB", archive.display());
    }
    println!("cargo:rerun-if-changed={}", archive.display());
    println!("cargo:rustc-link-search=native={}", folder.display());
    println!("cargo:rustc-link-lib=static=iolite");
    println!("cargo:rustc-link-lib=m");
}
