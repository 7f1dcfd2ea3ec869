//! Links the library, from NTSYNC_LIB_DIR or build/, and with the feature `check` the archive of its validity check alone,
//! which bench/run builds.

use std::env;
use std::path::PathBuf;

fn main() {
    let root = PathBuf::from(env::var_os("CARGO_MANIFEST_DIR").expect("cargo sets CARGO_MANIFEST_DIR")).join("..");
    println!("cargo:rerun-if-env-changed=NTSYNC_LIB_DIR");
    link(env::var_os("NTSYNC_LIB_DIR").map_or(root.join("build"), PathBuf::from), "ntsync");
    if env::var_os("CARGO_FEATURE_CHECK").is_some() {
        link(root.join("crates/bench/out"), "bench");
    }
}

fn link(folder: PathBuf, archive: &str) {
    println!("cargo:rustc-link-search=native={}", folder.display());
    println!("cargo:rustc-link-lib=static={archive}");
    println!("cargo:rerun-if-changed={}", folder.join(format!("lib{archive}.a")).display());
}
