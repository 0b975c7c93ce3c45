//! Folders to run commands in.

#![allow(dead_code)]

use std::path::{Path, PathBuf};
use std::process::Command;
use std::{env, fs};

pub const ROOT: &str = concat!(env!("CARGO_MANIFEST_DIR"), "/..");

pub const FIRST: &str = "1 propagate 2 0\n2 conflict 2 0\n3 skip 1 0\n4 resolve 1 0\nrefuted\n";

/// The paper's example: refuted.
pub fn first() -> Vec<u8> {
    fs::read(format!("{ROOT}/examples/first.drf")).expect("an example")
}

/// The same without its steps: open.
pub fn open() -> Vec<u8> {
    const STEPS: usize = 33;
    [&first()[..STEPS], &[0, 0]].concat()
}

/// Its second step twice: stopped, since a conflict stands.
pub fn stopped() -> Vec<u8> {
    const STEPS: usize = 33;
    let first = first();
    let (propagate, conflict) = (&first[STEPS + 2..STEPS + 7], &first[STEPS + 7..STEPS + 11]);
    [&first[..STEPS], &[3, 0], propagate, conflict, conflict].concat()
}

/// A folder of a test's own, which goes with it: the gate takes no link anywhere in the project.
pub struct Folder(pub PathBuf);

impl Drop for Folder {
    fn drop(&mut self) {
        let _ = fs::remove_dir_all(&self.0);
    }
}

impl Folder {
    pub fn new(name: &str) -> Folder {
        let path = Path::new(env!("CARGO_TARGET_TMPDIR")).join(name);
        let _ = fs::remove_dir_all(&path);
        fs::create_dir_all(&path).expect("a folder");
        Folder(path)
    }

    pub fn put(&self, name: &str, bytes: impl AsRef<[u8]>) -> PathBuf {
        let path = self.0.join(name);
        fs::create_dir_all(path.parent().expect("a name within")).expect("a folder");
        fs::write(&path, bytes).expect("a file");
        path
    }

    /// `sh` with a script, in this folder, `drf` on its path
    pub fn shell(&self, script: &str) -> Command {
        let drf = Path::new(env!("CARGO_BIN_EXE_drf"));
        let path = env::var_os("PATH").expect("a path");
        let folders = drf.parent().into_iter().map(PathBuf::from).chain(env::split_paths(&path));
        let mut command = Command::new("sh");
        command.current_dir(&self.0).args(["-c", script]);
        command.env("PATH", env::join_paths(folders).expect("a path"));
        command
    }

    pub fn run(&self, script: &str) -> Ended {
        ended(&mut self.shell(script))
    }
}

/// How a command ended, and what it wrote
#[derive(Debug, PartialEq, Eq)]
pub struct Ended {
    pub status: Option<i32>,
    pub out: String,
    pub err: String,
}

pub fn ended(command: &mut Command) -> Ended {
    let output = command.output().expect("it can be started");
    let text = |bytes| String::from_utf8_lossy(bytes).into_owned();
    Ended { status: output.status.code(), out: text(&output.stdout), err: text(&output.stderr) }
}
