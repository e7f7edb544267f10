//! Looks for the proved library's two archives and sets `proved` where both are there: its
//! five calls are then linked, and an archive that lacks one of its own does not link.
//! Without both the project builds Rust-only.

use std::env;
use std::path::PathBuf;

/// The archives: check, both ways to expand and read are in the first, links in the second.
const ARCHIVES: [&str; 2] = ["nezkaldo", "nezkaldo_links"];

fn main() {
    println!("cargo:rerun-if-env-changed=NEZKALDO_LIB_DIR");
    println!("cargo:rerun-if-changed=build.rs");

    let folder = match env::var_os("NEZKALDO_LIB_DIR") {
        Some(folder) => PathBuf::from(folder),
        None => PathBuf::from(env::var_os("CARGO_MANIFEST_DIR").expect("cargo sets it"))
            .join("../target/staticlib"),
    };
    let mut missing = Vec::new();
    for name in ARCHIVES {
        let archive = folder.join(format!("lib{name}.a"));
        println!("cargo:rerun-if-changed={}", archive.display());
        if !archive.is_file() {
            missing.push(archive);
        }
    }
    // Half of the library is named, and all of it where a folder was given; no library at all is
    // an ordinary build.
    if missing.len() == 1 || !missing.is_empty() && env::var_os("NEZKALDO_LIB_DIR").is_some() {
        for archive in &missing {
            println!("cargo:warning={} is not there: building Rust-only", archive.display());
        }
    }
    if !missing.is_empty() {
        return;
    }
    let folder = folder.canonicalize().expect("the folder of a file that is there");
    println!("cargo:rustc-link-search=native={}", folder.display());
    for name in ARCHIVES {
        println!("cargo:rustc-link-lib=static={name}");
    }
    println!("cargo:rustc-cfg=proved");
}
