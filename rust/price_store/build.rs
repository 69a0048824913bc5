//! Links the proved code's static library.

use std::env;
use std::path::{Path, PathBuf};

const FOLDER_VARIABLE: &str = "PRICE_STORE_LIB_DIR";
const LIBRARY: &str = "price_store_c";

fn main() {
    let folder = library_folder();
    println!("cargo::rerun-if-changed=build.rs");
    println!("cargo::rerun-if-env-changed={FOLDER_VARIABLE}");
    let file = folder.join(format!("lib{LIBRARY}.a"));
    println!("cargo::rerun-if-changed={}", file.display());
    if !file.exists() {
        println!(
            "cargo::warning={} is missing: build it first, or name its folder in {FOLDER_VARIABLE}",
            file.display()
        );
    }
    println!("cargo::rustc-link-search=native={}", folder.display());
    println!("cargo::rustc-link-lib=static={LIBRARY}");
}

fn library_folder() -> PathBuf {
    match env::var_os(FOLDER_VARIABLE) {
        Some(folder) => PathBuf::from(folder),
        None => {
            let own_folder = env::var_os("CARGO_MANIFEST_DIR").unwrap_or_default();
            Path::new(&own_folder).join("../../crates/price_store_c/out")
        }
    }
}
