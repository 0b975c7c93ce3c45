//! Hands the command what `--version` prints: the commit, from DRF_COMMIT or else from git, and the kit's id, from the file KIT.

use std::path::Path;
use std::process::Command;
use std::{env, fs};

const ROOT: &str = concat!(env!("CARGO_MANIFEST_DIR"), "/..");

fn main() {
    let kit = fs::read_to_string(format!("{ROOT}/KIT")).unwrap_or_default();
    println!("cargo:rerun-if-changed={ROOT}/KIT");
    println!("cargo:rerun-if-env-changed=DRF_COMMIT");
    println!("cargo:rerun-if-env-changed=DRF_SOURCES");
    // Whether the commit is dirty changes with a source.
    println!("cargo:rerun-if-changed={ROOT}/shell/src");
    println!("cargo:rerun-if-changed={ROOT}/drf/src");
    println!("cargo:rustc-env=DRF_KIT={}", or_unknown(kit.lines().next()));
    let commit = env::var("DRF_COMMIT").ok().or_else(described);
    println!("cargo:rustc-env=DRF_COMMIT={}", or_unknown(commit.as_deref()));
}

fn or_unknown(found: Option<&str>) -> &str {
    found.map(str::trim).filter(|text| !text.is_empty()).unwrap_or("unknown")
}

/// The commit as git describes it; none where the project is no repository of its own.
fn described() -> Option<String> {
    if !Path::new(ROOT).join(".git").exists() {
        return None;
    }
    if let Some(log) = git(&["rev-parse", "--path-format=absolute", "--git-path", "logs/HEAD"]) {
        println!("cargo:rerun-if-changed={}", log.trim());
    }
    git(&["describe", "--always", "--dirty", "--abbrev=12"])
}

fn git(words: &[&str]) -> Option<String> {
    let mut git = Command::new("git");
    // Those of another repository, if any
    git.env_remove("GIT_DIR").env_remove("GIT_WORK_TREE");
    let done = git.arg("-C").arg(ROOT).args(words).output().ok()?;
    done.status.success().then(|| String::from_utf8_lossy(&done.stdout).into_owned())
}
