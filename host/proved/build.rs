//! Links the proved static libraries into whatever calls them. They are in the directory that
//! ODDERSNOW_STATICLIB names, else where `packaging/proved` writes them.

use std::env;
use std::path::{absolute, PathBuf};

const LIBRARIES: [&str; 6] = [
    "label",
    "call_lists",
    "bench_api",
    "sheet_api",
    "listing_api",
    "reach",
];

fn main() {
    let named = env::var_os("ODDERSNOW_STATICLIB").map(PathBuf::from);
    let directory = named.unwrap_or_else(|| PathBuf::from("../../target/staticlib"));
    let directory = absolute(&directory).unwrap_or(directory);
    println!("cargo::rerun-if-changed=build.rs");
    println!("cargo::rerun-if-env-changed=ODDERSNOW_STATICLIB");
    // A library that is new or has changed is linked again.
    println!("cargo::rerun-if-changed={}", directory.display());
    println!("cargo::rustc-link-search=native={}", directory.display());
    for library in LIBRARIES {
        let archive = directory.join(format!("lib{library}.a"));
        if archive.exists() {
            println!("cargo::rustc-link-lib=static={library}");
        } else {
            // Only a warning: what calls none of its functions is built without it.
            let made = format!("`packaging/proved {library}` makes it");
            println!("cargo::warning=no {}: {made}", archive.display());
        }
    }
}
