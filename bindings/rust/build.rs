//! Finds the archive: `lib$HUQABO_LIB.a` (huqabo_c, if that is not set) in `$HUQABO_LIB_DIR` (where the repository's build leaves it).
use std::env;
use std::path::PathBuf;

fn main() {
    println!("cargo::rerun-if-env-changed=HUQABO_LIB_DIR");
    println!("cargo::rerun-if-env-changed=HUQABO_LIB");
    let home = PathBuf::from(env::var_os("CARGO_MANIFEST_DIR").expect("cargo sets CARGO_MANIFEST_DIR"));
    let folder = env::var_os("HUQABO_LIB_DIR").map_or_else(|| home.join("../../crates/huqabo_c/out"), PathBuf::from);
    let name = env::var("HUQABO_LIB").unwrap_or_else(|_| "huqabo_c".to_owned());
    let archive = folder.join(format!("lib{name}.a"));
    if !archive.is_file() {
        println!("cargo::error=no archive {}: set HUQABO_LIB_DIR to its folder", archive.display());
        return;
    }
    let folder = folder.canonicalize().expect("the archive's folder is there");
    println!("cargo::rerun-if-changed={}", archive.display());
    println!("cargo::rustc-link-search=native={}", folder.display());
    println!("cargo::rustc-link-lib=static={name}");
}
