//! Links the archives of proved code, which `rt lib` in crates/NAME writes to out/libNAME.a there. The script `bench` gives
//! the folder of a copy of the probe's archive by the variable `WELLEMBER_PROBE`.

use std::path::{Path, PathBuf};

fn main() {
    let probe = archive("probe");
    assert!(
        probe.exists(),
        "libprobe.a is missing: run `rt lib` in crates/probe"
    );
    println!("cargo:rerun-if-env-changed=WELLEMBER_PROBE");
    let from = std::env::var("WELLEMBER_PROBE").map_or_else(|_| folder("probe"), PathBuf::from);
    println!("cargo:rustc-link-search=native={}", from.display());
    println!("cargo:rustc-link-lib=static=probe");
    // Only the tests use the archive for C.
    println!(
        "cargo:rustc-link-arg-tests={}",
        archive("wellember").display()
    );
}

fn folder(name: &str) -> PathBuf {
    Path::new(env!("CARGO_MANIFEST_DIR")).join(format!("../../crates/{name}/out"))
}

fn archive(name: &str) -> PathBuf {
    let archive = folder(name).join(format!("lib{name}.a"));
    println!("cargo:rerun-if-changed={}", archive.display());
    archive
}
