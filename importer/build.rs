//! Finds the archive of the proved refiner and says what to run where it is missing. The program
//! learns which archive it is linked with: its sum, and the kit that proved it.
//!
//! Only linking needs the archive: where it is missing, `cargo check` and `cargo doc` pass with a
//! warning, and a build ends with rustc's word that the library `refiner` was not found.

#[path = "build/record.rs"]
mod record;
#[path = "build/sha256.rs"]
mod sha256;

use std::env;
use std::fs;
use std::path::{Path, PathBuf};

const ARCHIVE: &str = "librefiner.a";

fn main() {
    println!("cargo:rerun-if-changed=build.rs");
    println!("cargo:rerun-if-changed=build");
    println!("cargo:rerun-if-env-changed=REFINER_LIB_DIR");
    let folder = archive_folder();
    let archive = folder.join(ARCHIVE);
    println!("cargo:rerun-if-changed={}", archive.display());
    let sum = match fs::read(&archive) {
        Ok(bytes) => sha256::hex(&bytes),
        Err(_) => {
            explain(&archive);
            String::new()
        }
    };
    tell_origin(&folder, &sum);
    println!("cargo:rustc-link-search=native={}", folder.display());
    println!("cargo:rustc-link-lib=static=refiner");
}

/// `REFINER_LIB_DIR`, or where `rt lib` writes.
fn archive_folder() -> PathBuf {
    match env::var_os("REFINER_LIB_DIR") {
        Some(folder) => PathBuf::from(folder),
        None => {
            let package = PathBuf::from(env::var_os("CARGO_MANIFEST_DIR").unwrap_or_default());
            let root = package.parent().unwrap_or(&package);
            root.join("crates/refiner/out")
        }
    }
}

/// The archive's sum and its kit, for `refine --version`; the kit is empty where no record of this
/// very archive stands beside it. The kit that is there now may be another one and is not asked.
fn tell_origin(folder: &Path, sum: &str) {
    let record = folder.join(record::RECORD);
    let text = fs::read_to_string(&record).unwrap_or_default();
    let kit = record::kit(&text, sum).unwrap_or_default();
    println!("cargo:rustc-env=REFINER_ARCHIVE_SUM={sum}");
    println!("cargo:rustc-env=REFINER_KIT={kit}");
    // A file that is not there would count as changed each time; the folder changes with it.
    let watched = if record.exists() { &record } else { folder };
    println!("cargo:rerun-if-changed={}", watched.display());
}

/// A line is a warning of its own; cargo shows them where the package is built from its sources.
fn explain(archive: &Path) {
    let lines = [
        &*format!(
            "the archive {} is missing, so nothing can be linked.",
            archive.display()
        ),
        "Run `rt lib` in the folder crates/refiner: it proves the refiner and writes the archive.",
        "If the archive stands elsewhere, set REFINER_LIB_DIR to its folder.",
    ];
    for line in lines {
        println!("cargo:warning={line}");
    }
}
