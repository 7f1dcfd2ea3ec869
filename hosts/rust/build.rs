//! Says where libntsync.a is: the folder NTSYNC_LIB_DIR, else build/ at the repository's root, where hosts/build puts it.

use std::env;
use std::path::PathBuf;
use std::process::exit;

fn main() {
    println!("cargo:rerun-if-env-changed=NTSYNC_LIB_DIR");
    println!("cargo:rerun-if-changed=build.rs");
    let target = ["ARCH", "OS", "POINTER_WIDTH"].map(|part| variable(&format!("CARGO_CFG_TARGET_{part}")));
    if target != ["x86_64", "linux", "64"] {
        refuse(&format!("libntsync.a is built for x86-64 Linux alone, and the target is {}.", variable("TARGET")));
    }
    let folder = match env::var_os("NTSYNC_LIB_DIR") {
        Some(given) => PathBuf::from(given),
        None => PathBuf::from(variable("CARGO_MANIFEST_DIR")).join("../../build"),
    };
    // The whole path, because the linker need not run in this folder.
    let Ok(folder) = folder.canonicalize().and_then(|whole| whole.join("libntsync.a").metadata().map(|_| whole)) else {
        refuse(&format!(
            "There is no libntsync.a in {}: run hosts/build, or set NTSYNC_LIB_DIR to its folder.",
            folder.display()
        ));
    };
    println!("cargo:rerun-if-changed={}", folder.join("libntsync.a").display());
    println!("cargo:rustc-link-search=native={}", folder.display());
    println!("cargo:rustc-link-lib=static=ntsync");
}

/// What cargo tells the script.
fn variable(name: &str) -> String {
    env::var(name).unwrap_or_else(|_| refuse(&format!("cargo did not set {name}.")))
}

/// Ends the build with a sentence, without a backtrace.
fn refuse(sentence: &str) -> ! {
    eprintln!("{sentence}");
    exit(1)
}
