//! Links libexports.a, which `tools/staticlib` writes: from the folder DOVRELKA_LIB, or from the
//! repository's target/staticlib.

use std::path::{Path, PathBuf};

fn main() {
    println!("cargo:rerun-if-env-changed=DOVRELKA_LIB");
    let folder = match std::env::var_os("DOVRELKA_LIB") {
        Some(folder) => PathBuf::from(folder),
        None => Path::new(env!("CARGO_MANIFEST_DIR")).join("../target/staticlib"),
    };
    let library = folder.join("libexports.a");
    assert!(
        library.is_file(),
        "{} is not there: run `tools/staticlib` in the repository, or set DOVRELKA_LIB to the folder that holds libexports.a",
        library.display()
    );
    println!("cargo:rustc-link-search=native={}", folder.display());
    println!("cargo:rustc-link-lib=static=exports");
    println!("cargo:rerun-if-changed={}", library.display());
}
