//! For build scripts: links proved archives.

use std::path::Path;

/// Links the archives of these names, which `tools/build NAME` leaves.
pub fn archives(names: &[&str]) {
    let here = std::env::var("CARGO_MANIFEST_DIR").expect("cargo names the folder");
    let folder = Path::new(&here).join("../../target/staticlib");
    println!("cargo:rustc-link-search=native={}", folder.display());
    for name in names {
        let archive = folder.join(format!("lib{name}.a"));
        println!("cargo:rerun-if-changed={}", archive.display());
        assert!(
            archive.exists(),
            "no target/staticlib/lib{name}.a: run `tools/build {name}` first"
        );
        println!("cargo:rustc-link-lib=static={name}");
    }
}
