//! Finds libhighboyrobin.a and has cargo link it.

use std::env::var_os;
use std::path::PathBuf;
use std::process::exit;

const ARCHIVE: &str = "libhighboyrobin.a";

/// Names the folder of the archive.
const NAMED: &str = "HIGHBOYROBIN_LIB_DIR";

/// Where the archive may lie: in the folder that is named; where none is, beside Cargo.toml or where `tests/archive` leaves it.
fn folders() -> Vec<PathBuf> {
    if let Some(named) = var_os(NAMED).filter(|named| !named.is_empty()) {
        return vec![named.into()];
    }
    let here = PathBuf::from(var_os("CARGO_MANIFEST_DIR").expect("cargo runs this"));
    vec![here.clone(), here.join("../target/staticlib")]
}

fn main() {
    println!("cargo::rerun-if-env-changed={NAMED}");
    let folders = folders();
    let Some(folder) = folders.iter().find(|folder| folder.join(ARCHIVE).is_file()) else {
        for folder in &folders {
            eprintln!("there is no {ARCHIVE} in {}", folder.display());
        }
        eprintln!("make it with `tests/archive` in the repository; then put it beside this package's Cargo.toml,");
        eprintln!("or set {NAMED} to the absolute path of its folder");
        exit(1);
    };
    println!("cargo::rerun-if-changed={}", folder.join(ARCHIVE).display());
    println!("cargo::rustc-link-search=native={}", folder.display());
    println!("cargo::rustc-link-lib=static=highboyrobin");
}
