//! Finds `libsdtool`: in the folder that `SDTOOL_LIB_DIR` names, by `pkg-config`, or where the linker looks. With
//! `SDTOOL_STATIC=1` it is linked statically.
use std::env;
use std::process::Command;

/// The folder that `pkg-config` names, if it is installed and knows the library.
fn installed() -> Option<String> {
    let words = ["--variable=libdir", "sdtool"];
    let found = Command::new("pkg-config").args(words).output().ok()?;
    let folder = String::from_utf8(found.stdout).ok()?.trim().to_owned();
    (found.status.success() && !folder.is_empty()).then_some(folder)
}

fn main() {
    for name in ["SDTOOL_LIB_DIR", "SDTOOL_STATIC"] {
        println!("cargo:rerun-if-env-changed={name}");
    }
    if let Some(folder) = env::var("SDTOOL_LIB_DIR").ok().or_else(installed) {
        println!("cargo:rustc-link-search=native={folder}");
    }
    let is_static = env::var("SDTOOL_STATIC").map_or(false, |value| value == "1");
    println!("cargo:rustc-link-lib={}=sdtool", if is_static { "static" } else { "dylib" });
}
