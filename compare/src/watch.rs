//! Work that a signal may end: done in a process of its own, with the files in hand on disk, so that the one that ended it is kept.

use crate::beside::Buffer;
use std::env;
use std::fs::{self, File};
use std::hash::{DefaultHasher, Hash, Hasher};
use std::io::{self, Read};
use std::os::unix::fs::FileExt;
use std::os::unix::process::ExitStatusExt;
use std::path::{Path, PathBuf};
use std::process::{Command, ExitCode, ExitStatus, Stdio};
use std::thread;

/// Where files are kept
const KEPT: &str = concat!(env!("CARGO_MANIFEST_DIR"), "/kept");
/// Where folders of files in hand are
const WORK: &str = concat!(env!("CARGO_MANIFEST_DIR"), "/target/hands");
/// The folder of the files in hand; it tells a process that it is the one that works.
const HANDS: &str = "COMPARE_HANDS";
/// A file that a process is to compare, and nothing else.
const ALONE: &str = "COMPARE_ALONE";
/// The signals by which a fault ends a process: ILL, TRAP, ABRT, BUS, FPE, SEGV
const FAULTS: [i32; 6] = [4, 5, 6, 7, 8, 11];

/// The file that a worker has in hand, on disk
pub struct Hand(File);

impl Hand {
    /// The hand of the kth worker
    pub fn of(k: usize) -> io::Result<Hand> {
        let folder = env::var_os(HANDS).ok_or(io::Error::other("not the process that works"))?;
        Ok(Hand(File::create(Path::new(&folder).join(k.to_string()))?))
    }

    pub fn take(&self, file: &[u8]) -> io::Result<()> {
        self.0.set_len(file.len() as u64)?;
        self.0.write_all_at(file, 0)
    }
}

/// Writes a file to the folder of files kept, and says so.
pub fn keep(name: &str, file: &[u8]) -> io::Result<()> {
    fs::create_dir_all(KEPT)?;
    let path = PathBuf::from(KEPT).join(format!("{name}.drf"));
    fs::write(&path, file)?;
    println!("kept: {}", path.display());
    Ok(())
}

/// A name for a file of these bytes
pub fn name(tool: &str, file: &[u8]) -> String {
    let mut hasher = DefaultHasher::new();
    file.hash(&mut hasher);
    format!("{tool}-{:016x}", hasher.finish())
}

/// Keeps all files in hand: nothing is known but that one of them does not come to its end.
pub fn keep_hands(tool: &str) -> io::Result<()> {
    match env::var_os(HANDS) {
        Some(folder) => {
            for file in hands(Path::new(&folder))? {
                keep(&name(tool, &file), &file)?;
            }
            Ok(())
        }
        None => Ok(()),
    }
}

fn hands(folder: &Path) -> io::Result<Vec<Vec<u8>>> {
    let mut files = Vec::new();
    for entry in fs::read_dir(folder)? {
        files.push(fs::read(entry?.path())?);
    }
    Ok(files)
}

/// Does the work in another process and hands on its status, or 1 where a fault ended it.
pub fn watched(tool: &str, work: impl FnOnce() -> io::Result<ExitCode>) -> io::Result<ExitCode> {
    if let Some(path) = env::var_os(ALONE) {
        Buffer::default().compare_replayed(&fs::read(path)?).ok();
        return Ok(ExitCode::SUCCESS);
    }
    if env::var_os(HANDS).is_some() {
        end_with_parent();
        return work();
    }
    let folder = PathBuf::from(WORK).join(format!("{tool}-{}", std::process::id()));
    fs::create_dir_all(&folder)?;
    // What is piped ends when this process does.
    let mut child = again()?.env(HANDS, &folder).stdin(Stdio::piped()).spawn()?;
    let _pipe = child.stdin.take();
    let status = child.wait()?;
    let code = match status.code() {
        Some(code) => ExitCode::from(code as u8),
        None => ended(tool, status, &folder)?,
    };
    fs::remove_dir_all(&folder)?;
    Ok(code)
}

/// This program with the same words
fn again() -> io::Result<Command> {
    let mut command = Command::new(env::current_exe()?);
    command.args(env::args_os().skip(1));
    Ok(command)
}

fn end_with_parent() {
    thread::spawn(|| {
        let mut none = Vec::new();
        io::stdin().read_to_end(&mut none).ok();
        std::process::exit(2);
    });
}

fn is_fault(status: ExitStatus) -> bool {
    status.signal().is_some_and(|signal| FAULTS.contains(&signal))
}

/// Of the files in hand those are kept that end a process by themselves; all, where none does.
fn ended(tool: &str, status: ExitStatus, folder: &Path) -> io::Result<ExitCode> {
    println!("{tool}: ended by {status}");
    if !is_fault(status) {
        return Ok(ExitCode::from(2));
    }
    let files = hands(folder)?;
    let alone = folder.join("alone");
    let mut found = Vec::new();
    for file in &files {
        fs::write(&alone, file)?;
        if is_fault(again()?.env(ALONE, &alone).status()?) {
            found.push(file.clone());
        }
    }
    for file in if found.is_empty() { &files } else { &found } {
        keep(&name(tool, file), file)?;
    }
    Ok(ExitCode::FAILURE)
}
