//! With the feature `capi`, links libcapi.a from the folder in the variable
//! TEGRWYLLT_LIB, or from target/staticlib beside this package.

use std::env;
use std::path::PathBuf;

fn main() {
    println!("cargo::rerun-if-env-changed=TEGRWYLLT_LIB");
    println!("cargo::rerun-if-changed=build.rs");
    if env::var_os("CARGO_FEATURE_CAPI").is_none() {
        return;
    }
    let folder = archive_folder();
    println!("cargo::rustc-link-search=native={}", folder.display());
    println!("cargo::rustc-link-lib=static=capi");
    println!("cargo::rerun-if-changed={}", folder.join("libcapi.a").display());
}

fn archive_folder() -> PathBuf {
    let package = PathBuf::from(env::var_os("CARGO_MANIFEST_DIR").expect("set by cargo"));
    match env::var_os("TEGRWYLLT_LIB") {
        Some(folder) => package.join(folder),
        None => package.join("../target/staticlib"),
    }
}
