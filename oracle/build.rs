//! Finds the supplied files of diplomat_core 0.17.0 and writes, outside the source tree, `mod` lines that
//! name them by `#[path]`: they are compiled where they lie, byte for byte.
//!
//! They are in the folder DIPLOMAT_CORE_SRC, which holds `ast/` and `hir/`; where that is not set, in
//! ../shared/docs/src/src beside the repository.

use std::fs;
use std::path::{Path, PathBuf};

/// modules of `crate::ast` and their files
const AST: &[(&str, &str)] = &[
    ("logging", "ast/logging.rs"),
    ("lifetimes", "ast/lifetimes.rs"),
    ("methods", "ast/methods.rs"),
    ("enums", "ast/enums.rs"),
];

/// modules of `crate::hir` and their files; methods.rs and type_context.rs are mounted apart
const HIR: &[(&str, &str)] = &[
    ("lifetimes", "hir/lifetimes.rs"),
    ("elision", "hir/elision.rs"),
    ("types", "hir/types.rs"),
    ("paths", "hir/paths.rs"),
    ("ty_position", "hir/ty_position.rs"),
    ("defs", "hir/defs.rs"),
    ("lowering", "hir/lowering.rs"),
];

fn mount(supplied: &Path, list: &[(&str, &str)]) -> String {
    let mut s = String::new();
    for (module, file) in list {
        let p = supplied.join(file);
        println!("cargo:rerun-if-changed={}", p.display());
        s += &format!("#[path = {:?}]\npub mod {module};\n", p.to_str().unwrap());
    }
    s
}

fn link(to: &Path, at: &Path) {
    println!("cargo:rerun-if-changed={}", to.display());
    assert!(to.is_file(), "missing: {}", to.display());
    let _ = fs::remove_file(at);
    std::os::unix::fs::symlink(to, at).unwrap();
}

fn main() {
    println!("cargo:rerun-if-changed=build.rs");
    println!("cargo:rerun-if-env-changed=DIPLOMAT_CORE_SRC");
    let here = PathBuf::from(std::env::var("CARGO_MANIFEST_DIR").unwrap());
    let out = PathBuf::from(std::env::var("OUT_DIR").unwrap());
    let supplied = match std::env::var_os("DIPLOMAT_CORE_SRC") {
        Some(p) => PathBuf::from(p),
        None => here.join("../../shared/docs/src/src"),
    };
    let supplied = supplied
        .canonicalize()
        .unwrap_or_else(|e| panic!("supplied sources not found at {}: {e}", supplied.display()));

    fs::write(out.join("ast_supplied.rs"), mount(&supplied, AST)).unwrap();
    fs::write(out.join("hir_supplied.rs"), mount(&supplied, HIR)).unwrap();
    fs::write(
        out.join("hir_type_context.rs"),
        mount(&supplied, &[("type_context", "hir/type_context.rs")]),
    )
    .unwrap();

    // methods.rs declares two modules, which the compiler looks for beside it: borrowing_param.rs, which
    // is supplied in a folder of its own, and borrowing_field.rs, which is not supplied. Symbolic links
    // put the three side by side.
    let dir = out.join("methods");
    fs::create_dir_all(&dir).unwrap();
    link(&supplied.join("hir/methods.rs"), &dir.join("methods.rs"));
    link(
        &supplied.join("hir/methods/borrowing_param.rs"),
        &dir.join("borrowing_param.rs"),
    );
    link(
        &here.join("src/hir/borrowing_field.rs"),
        &dir.join("borrowing_field.rs"),
    );
    fs::write(
        out.join("hir_methods.rs"),
        format!(
            "#[path = {:?}]\npub mod methods;\n",
            dir.join("methods.rs").to_str().unwrap()
        ),
    )
    .unwrap();
}
