//! Links to the harness AFL++'s runtime, the object AFL_RUNTIME; and to `since` the archives of the folder SINCE. Says where the archives are
//! that tests link by themselves.

use std::env;

/// Where `tools/archive` puts them
const ARCHIVES: &str = concat!(env!("CARGO_MANIFEST_DIR"), "/../target/archive");

fn main() {
    println!("cargo:rustc-link-search=native={ARCHIVES}");
    println!("cargo:rerun-if-env-changed=AFL_RUNTIME");
    if let Ok(runtime) = env::var("AFL_RUNTIME") {
        println!("cargo:rustc-link-arg-bin=harness={runtime}");
    }
    println!("cargo:rerun-if-env-changed=SINCE");
    if let Ok(folder) = env::var("SINCE") {
        println!("cargo:rerun-if-changed={folder}");
        println!("cargo:rustc-link-search=native={folder}");
    }
}
