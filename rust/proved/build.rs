//! Finds the proved static library, if the feature `link` asks for it, and notes its path and sum.

use std::{env, fs, path::PathBuf, process::exit};

#[path = "src/sum.rs"]
mod sum;

fn main() {
    println!("cargo::rerun-if-env-changed=QONVESHIR_LIB_DIR");
    if env::var_os("CARGO_FEATURE_LINK").is_none() {
        return;
    }
    let folder = env::var_os("QONVESHIR_LIB_DIR").map_or_else(
        || PathBuf::from(env!("CARGO_MANIFEST_DIR")).join("../../target/staticlib"),
        PathBuf::from,
    );
    let library = folder.join("libqonveshir.a");
    println!("cargo::rerun-if-changed={}", library.display());
    match (fs::read(&library), library.canonicalize()) {
        (Ok(bytes), Ok(path)) => {
            println!("cargo::rustc-env=QONVESHIR_LIBRARY={}", path.display());
            println!("cargo::metadata=archive={}", path.display());
            println!("cargo::rustc-env=QONVESHIR_SUM={:016x}", sum::sum(&bytes));
            println!("cargo::rustc-link-search=native={}", folder.display());
            println!("cargo::rustc-link-lib=static=qonveshir");
        }
        _ => {
            println!(
                "cargo::error={} is missing: run `.ci/staticlib` in the repository's root, name \
                 its folder in QONVESHIR_LIB_DIR, or do without the proved library by \
                 --no-default-features",
                library.display()
            );
            exit(1);
        }
    }
}
