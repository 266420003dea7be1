//! Links the proved checker where the feature `proved` asks for it.

use std::path::Path;

fn main() {
    println!("cargo:rerun-if-changed=build.rs");
    if std::env::var_os("CARGO_FEATURE_PROVED").is_none() {
        return;
    }
    let package = std::env::var("CARGO_MANIFEST_DIR").expect("cargo sets it");
    let root = Path::new(&package).join("../..");
    link(&root.join("crates/host/out"), "host", "(cd crates/host && rt lib)");
    if std::env::var_os("CARGO_FEATURE_FORMER").is_some() {
        link(&root.join("target"), "former", "tools/former LIBHOST.a");
    }
}

/// Links a library, or says how to make it: the linker's own message would not.
fn link(folder: &Path, name: &str, command: &str) {
    let library = folder.join(format!("lib{name}.a"));
    println!("cargo:rustc-link-search=native={}", folder.display());
    println!("cargo:rerun-if-changed={}", library.display());
    assert!(library.exists(), "{} is missing: run `{command}`", library.display());
    println!("cargo:rustc-link-lib=static={name}");
}
