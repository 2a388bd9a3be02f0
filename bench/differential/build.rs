//! Links the library under test: lib$HUQABO_LIB.a in the folder $HUQABO_LIB_DIR.

use std::env::var;

fn main() {
    let folder = var("HUQABO_LIB_DIR").expect("HUQABO_LIB_DIR names the folder of the library under test");
    let name = var("HUQABO_LIB").unwrap_or("huqabo_c".into());
    let archive = std::path::Path::new(&folder).join(format!("lib{name}.a"));
    let archive = archive.canonicalize().unwrap_or_else(|error| panic!("{}: {error}", archive.display()));
    println!("cargo::rerun-if-env-changed=HUQABO_LIB_DIR");
    println!("cargo::rerun-if-env-changed=HUQABO_LIB");
    println!("cargo::rerun-if-changed={}", archive.display());
    println!("cargo::rustc-link-search=native={}", archive.parent().expect("a folder").display());
    println!("cargo::rustc-link-lib=static={name}");
    println!("cargo::rustc-link-lib=m");
}
