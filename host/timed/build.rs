//! Links the proved functions that only the bench and the comparison call: libbench_calls.a of the repository's target/native.

use std::env;
use std::path::PathBuf;

fn main() {
    let here = PathBuf::from(env::var_os("CARGO_MANIFEST_DIR").expect("cargo names the package's folder"));
    let folder = here.join("../../target/native");
    let archive = folder.join("libbench_calls.a");
    println!("cargo::rerun-if-changed={}", archive.display());
    if !archive.is_file() {
        println!("cargo::error=there is no {}", archive.display());
        println!("cargo::error=run `tools/native staticlib bench_calls` at the top of the repository first");
        return;
    }
    println!("cargo::rustc-link-search=native={}", folder.display());
    println!("cargo::rustc-link-lib=static=bench_calls");
}
