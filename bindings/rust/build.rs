//! Links the proved archive: crates/aslapush/out/libaslapush.a of the repository, or the folder that ASLAPUSH_LIB names.
use std::{env, path::Path};

fn main() {
    println!("cargo::rerun-if-env-changed=ASLAPUSH_LIB");
    let here = env::var("CARGO_MANIFEST_DIR").unwrap();
    let folder = env::var("ASLAPUSH_LIB").unwrap_or_else(|_| format!("{here}/../../crates/aslapush/out"));
    if !Path::new(&folder).join("libaslapush.a").exists() {
        panic!("libaslapush.a is not in {folder}: run `rt lib` in crates/aslapush of the repository, or name its folder in ASLAPUSH_LIB");
    }
    println!("cargo::rerun-if-changed={folder}/libaslapush.a");
    println!("cargo::rustc-link-search=native={folder}");
    println!("cargo::rustc-link-lib=static=aslapush");
}
