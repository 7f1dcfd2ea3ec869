//! Links libntsync.a from NTSYNC_LIB_DIR, or from build/ beside tests/.
use std::{env, path::PathBuf};

fn main() {
    let here = PathBuf::from(env::var("CARGO_MANIFEST_DIR").unwrap());
    let default = here.join("../../build");
    let dir = env::var("NTSYNC_LIB_DIR").map_or(default, PathBuf::from);
    println!("cargo:rustc-link-search=native={}", dir.display());
    println!("cargo:rustc-link-lib=static=ntsync");
    println!("cargo:rerun-if-env-changed=NTSYNC_LIB_DIR");
    println!("cargo:rerun-if-changed={}", dir.join("libntsync.a").display());
}
