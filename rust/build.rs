//! Links `libtrieff.a`, which `tools/build trieff` builds. It is taken from the folder that the
//! environment variable TRIEFF_LIB names, else from `target/staticlib` of the repository. Sets
//! `core_error` if the compiler has `core::error::Error`, which came with Rust 1.81.

use std::env;
use std::path::PathBuf;
use std::process::{exit, Command};

fn main() {
    println!("cargo:rustc-check-cfg=cfg(core_error)");
    if minor_version().map_or(false, |minor| minor >= 81) {
        println!("cargo:rustc-cfg=core_error");
    }
    println!("cargo:rerun-if-env-changed=TRIEFF_LIB");
    let folder = match env::var_os("TRIEFF_LIB") {
        Some(named) => PathBuf::from(named),
        None => {
            PathBuf::from(env::var_os("CARGO_MANIFEST_DIR").unwrap()).join("../target/staticlib")
        }
    };
    // cargo runs this in the crate's folder, so a relative path would lead elsewhere
    if !folder.is_absolute() {
        refuse(&format!("TRIEFF_LIB is {}: give the whole path", folder.display()));
    }
    let library = folder.join("libtrieff.a");
    println!("cargo:rerun-if-changed={}", library.display());
    if !library.is_file() {
        refuse(&format!(
            "no {}: run `tools/build trieff` first, \
             or set TRIEFF_LIB to the folder that holds libtrieff.a",
            library.display()
        ));
    }
    println!("cargo:rustc-link-search=native={}", folder.display());
    println!("cargo:rustc-link-lib=static=trieff");
}

/// The 81 of `rustc 1.81.0 (..)`; `None` if the compiler says something else.
fn minor_version() -> Option<u32> {
    let said = Command::new(env::var_os("RUSTC")?).arg("--version").output().ok()?.stdout;
    let version = String::from_utf8(said).ok()?;
    version.strip_prefix("rustc 1.")?.split('.').next()?.parse().ok()
}

fn refuse(why: &str) -> ! {
    eprintln!("{why}");
    exit(1)
}
