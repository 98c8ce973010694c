//! Fetches the source of orion-sdr that src/lib.rs includes, so that none of it is kept in the repository.
//!
//! It is read from the folder that ORION_SRC names, else from `shared/docs/src` beside the repository. The files
//! are taken unchanged; of psk31.rs only the coder half, which ends before the streaming pipeline.

use std::path::{Path, PathBuf};
use std::{env, fs};

/// How the line begins that ends psk31.rs's coder half.
const PIPELINE: &str = "// ── Streaming PSK31 decode pipeline ";

fn main() {
    println!("cargo::rerun-if-env-changed=ORION_SRC");
    let here = folder_of("CARGO_MANIFEST_DIR");
    let source = env::var_os("ORION_SRC").map_or(here.join("../../../shared/docs/src"), PathBuf::from);
    let kept = folder_of("OUT_DIR");
    fs::write(kept.join("conv.rs"), read(&source.join("fec/conv.rs"))).unwrap();
    fs::write(kept.join("varicode.rs"), read(&source.join("codec/varicode.rs"))).unwrap();
    let psk31 = read(&source.join("codec/psk31.rs"));
    fs::write(kept.join("psk31.rs"), coder_half(&psk31)).unwrap();
}

fn folder_of(variable: &str) -> PathBuf {
    PathBuf::from(env::var_os(variable).expect("cargo sets it"))
}

fn read(file: &Path) -> String {
    println!("cargo::rerun-if-changed={}", file.display());
    match fs::read_to_string(file) {
        Ok(text) => text,
        Err(why) => panic!(
            "{}: {why}; ORION_SRC is to name the folder of orion-sdr's source",
            file.display()
        ),
    }
}

/// The text before the one line that begins the streaming pipeline.
fn coder_half(psk31: &str) -> &str {
    let start = format!("\n{PIPELINE}");
    let found: Vec<usize> = psk31.match_indices(&start).map(|(at, _)| at + 1).collect();
    match found[..] {
        [at] => &psk31[..at],
        _ => panic!(
            "psk31.rs has {} lines that begin with '{PIPELINE}', not one",
            found.len()
        ),
    }
}
