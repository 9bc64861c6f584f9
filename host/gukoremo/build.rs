//! Links target/staticlib/libgukoremo.a, the proved calls; with the feature `unproved` there is nothing to link.

use std::path::Path;

fn main() {
    println!("cargo::rerun-if-changed=build.rs");
    if std::env::var_os("CARGO_FEATURE_UNPROVED").is_some() {
        return;
    }
    let folder = Path::new(env!("CARGO_MANIFEST_DIR")).join("../../target/staticlib");
    let archive = folder.join("libgukoremo.a");
    println!("cargo::rerun-if-changed={}", archive.display());
    if !archive.exists() {
        println!(
            "cargo::error=the proved library is not there: make it with 'make library' at the top of the repository, which needs the Rattle kit, \
             or build over the second implementation, which is not proved, with '--features unproved'"
        );
        return;
    }
    println!("cargo::rustc-link-search=native={}", folder.display());
    println!("cargo::rustc-link-lib=static=gukoremo");
}
