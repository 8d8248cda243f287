//! Points the compiler at lindera's files, wherever they stand.

use std::path::{Path, PathBuf};
use std::{env, fs};

/// Modules that need no accessor beside them, and where they stand.
const PLAIN_MODULES: [(&str, &str); 3] = [
    ("error", "error.rs"),
    ("util", "util.rs"),
    ("context_id_map", "dictionary/context_id_map.rs"),
];

fn main() {
    let source = source_folder();
    println!("cargo:rerun-if-env-changed=LINDERA_SRC");
    println!("cargo:rerun-if-changed={}", source.display());
    println!("cargo:rustc-env=LINDERA_SRC={}", source.display());
    for (name, file) in PLAIN_MODULES {
        declare(name, &source.join(file));
    }
}

fn source_folder() -> PathBuf {
    let folder = env::var("LINDERA_SRC").unwrap_or_else(|_| "../../shared/docs/src/src".into());
    fs::canonicalize(&folder).unwrap_or_else(|why| panic!("lindera's source, {folder}: {why}"))
}

/// `#[path]` takes only a literal, and `include!` refuses a file that begins with `//!`, so the
/// declaration is written here.
fn declare(name: &str, file: &Path) {
    let out = PathBuf::from(env::var("OUT_DIR").unwrap()).join(format!("{name}.rs"));
    fs::write(out, format!("#[path = {file:?}]\npub mod {name};\n")).unwrap();
}
