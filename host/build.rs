//! Links the proved doors: libdoors.a and libradio.a of RELAY_DOORS_DIR, else of the repository's target/native.

use std::env;
use std::path::PathBuf;

/// The crates that are the archives. Neither needs the other.
const CRATES: [&str; 2] = ["doors", "radio"];

fn main() {
    println!("cargo::rerun-if-env-changed=RELAY_DOORS_DIR");
    let here = PathBuf::from(env::var_os("CARGO_MANIFEST_DIR").expect("cargo names the package's folder"));
    let folder = env::var_os("RELAY_DOORS_DIR").map_or(here.join("../target/native"), PathBuf::from);
    println!("cargo::rustc-link-search=native={}", folder.display());
    for name in CRATES {
        let archive = folder.join(format!("lib{name}.a"));
        println!("cargo::rerun-if-changed={}", archive.display());
        if archive.is_file() {
            println!("cargo::rustc-link-lib=static={name}");
        } else {
            println!("cargo::error=there is no {}", archive.display());
            println!("cargo::error=run `tools/native staticlib {name}` at the top of the repository first");
        }
    }
}
