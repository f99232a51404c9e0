//! Finds `liblarkhammock.a` and links it.

use std::env;
use std::path::PathBuf;
use std::process::exit;

fn main() {
    println!("cargo:rerun-if-changed=build.rs");
    println!("cargo:rerun-if-env-changed=LARKHAMMOCK_LIB");

    let folder = match env::var_os("LARKHAMMOCK_LIB") {
        Some(folder) => PathBuf::from(folder),
        None => PathBuf::from(env::var_os("CARGO_MANIFEST_DIR").expect("cargo sets it"))
            .join("../../crates/larkhammock/out"),
    };
    let archive = folder.join("liblarkhammock.a");
    println!("cargo:rerun-if-changed={}", archive.display());
    let Ok(archive) = archive.canonicalize() else {
        eprintln!(
            "no archive at {}: build it with `tools/prove larkhammock`, or name its \
             folder, as an absolute path, in LARKHAMMOCK_LIB",
            archive.display()
        );
        exit(1);
    };
    let folder = archive.parent().expect("a file has a folder");
    println!("cargo:rustc-link-search=native={}", folder.display());
    println!("cargo:rustc-link-lib=static=larkhammock");
    println!("cargo:rustc-env=LARKHAMMOCK_ARCHIVE={}", archive.display());
}
