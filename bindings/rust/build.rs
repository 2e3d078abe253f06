//! Links libsmb3seal.a from the folder that SMB3SEAL_LIB_DIR names, or from dist/ of this repository.
use std::{env, path::PathBuf};

fn main() {
    println!("cargo:rerun-if-env-changed=SMB3SEAL_LIB_DIR");
    let here = PathBuf::from(env::var_os("CARGO_MANIFEST_DIR").expect("cargo sets it"));
    let folder = env::var_os("SMB3SEAL_LIB_DIR").map_or(here.join("../../dist"), PathBuf::from);
    let archive = folder.join("libsmb3seal.a");
    println!("cargo:rerun-if-changed={}", archive.display());
    if !archive.is_file() {
        panic!(
            "{} is missing: run `make` in the repository, or set SMB3SEAL_LIB_DIR",
            archive.display()
        );
    }
    println!("cargo:rustc-link-search=native={}", folder.display());
    println!("cargo:rustc-link-lib=static=smb3seal");
}
