//! Links the static library of crate cabinet from the folder that GAWIPSOL_LIB
//! names, else from crates/cabinet/out beside tests/ and tools/. With the feature
//! `port` nothing is linked.

use std::env;
use std::path::PathBuf;

fn main() {
    println!("cargo:rerun-if-env-changed=GAWIPSOL_LIB");
    if env::var_os("CARGO_FEATURE_PORT").is_some() {
        return;
    }
    let folder = match env::var_os("GAWIPSOL_LIB") {
        Some(folder) => PathBuf::from(folder),
        None => PathBuf::from(env::var_os("CARGO_MANIFEST_DIR").expect("CARGO_MANIFEST_DIR"))
            .join("../../crates/cabinet/out"),
    };
    let library = folder.join("libcabinet.a");
    println!("cargo:rerun-if-changed={}", library.display());
    let folder = folder.canonicalize().unwrap_or(folder);
    assert!(
        library.is_file(),
        "{} is missing: build it by rt lib in crates/cabinet first, or set GAWIPSOL_LIB",
        library.display()
    );
    println!("cargo:rustc-link-search=native={}", folder.display());
    println!("cargo:rustc-link-lib=static=cabinet");
}
