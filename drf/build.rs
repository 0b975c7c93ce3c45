//! Links the static library that `tools/archive drf` writes to target/archive, or that of the folder DRF_LIBRARY.

use std::env;
use std::path::{Path, PathBuf};
use std::process::exit;

fn main() {
    println!("cargo:rerun-if-env-changed=DRF_LIBRARY");
    // A sum of the sources, by which `run` has a file seen that was put back and has an old time.
    println!("cargo:rerun-if-env-changed=DRF_SOURCES");
    let named = env::var_os("DRF_LIBRARY");
    let ours = Path::new(env!("CARGO_MANIFEST_DIR")).with_file_name("target").join("archive");
    let folder = named.as_ref().map_or(ours, PathBuf::from);
    let library = folder.join("libdrf.a");
    println!("cargo:rerun-if-changed={}", library.display());
    let (true, Ok(folder)) = (library.is_file(), folder.canonicalize()) else {
        eprintln!("{} is missing: {}", library.display(), remedy(named.is_some()));
        exit(1);
    };
    println!("cargo:rustc-link-search=native={}", folder.display());
    println!("cargo:rustc-link-lib=static=drf");
}

/// What writes the library
fn remedy(named: bool) -> &'static str {
    if named {
        "run `tools/archive drf`, which writes target/archive/libdrf.a, and have DRF_LIBRARY name the folder of it or of a copy"
    } else {
        "run `tools/archive drf`, which proves the library and writes it"
    }
}
