//! Links the archives of the proved functions, which stand where `ARCHIVES` says.

use std::path::PathBuf;
use std::{env, fs};

fn main() {
    println!("cargo:rerun-if-env-changed=ARCHIVES");
    let folder = env::var("ARCHIVES").unwrap_or_else(|_| "../target/staticlib".into());
    let folder: PathBuf =
        fs::canonicalize(&folder).unwrap_or_else(|why| panic!("the archives, {folder}: {why}"));
    println!("cargo:rustc-link-search=native={}", folder.display());
    for name in ["bench_entries", "terminal"] {
        println!(
            "cargo:rerun-if-changed={}",
            folder.join(format!("lib{name}.a")).display()
        );
        println!("cargo:rustc-link-lib=static={name}");
    }
}
