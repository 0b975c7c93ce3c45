//! Standard input, output and error, and files, without the leniency of the standard library: a failed read is no end, a failed write is
//! not lost, and a descriptor that is closed is not taken for an empty one.

use crate::filenames::on_one_line;
use std::ffi::{c_int, OsStr, OsString};
use std::fmt;
use std::fs::File;
use std::io::{self, Read, Write};
use std::os::fd::{AsFd, AsRawFd, IntoRawFd};
use std::os::unix::net::UnixDatagram;
use std::sync::atomic::{AtomicBool, Ordering};

extern "C" {
    fn fcntl(descriptor: c_int, command: c_int, ...) -> c_int;
    fn close(descriptor: c_int) -> c_int;
    fn dup2(descriptor: c_int, place: c_int) -> c_int;
}

/// The command of `fcntl` that asks for a descriptor's flags, and fails if it is closed
const F_GETFD: c_int = 1;

const INPUT: usize = 0;
const OUTPUT: usize = 1;

/// Which of standard input, output and error was closed when the program was started. Before `main` the standard library opens /dev/null in
/// their places, which reads as empty and takes what is written.
static CLOSED: [AtomicBool; 3] = [const { AtomicBool::new(false) }; 3];

#[used]
#[link_section = ".init_array"]
static BEFORE_MAIN: extern "C" fn() = look_for_closed;

extern "C" fn look_for_closed() {
    for (descriptor, closed) in (0..).zip(&CLOSED) {
        // SAFETY: this asks for the flags of a descriptor and changes nothing; of a closed one it fails. It needs nothing of the standard
        // library, whose start is still to come, and does not unwind.
        let flags = unsafe { fcntl(descriptor, F_GETFD) };
        closed.store(flags == -1, Ordering::Relaxed);
    }
}

/// Puts a socket in the place of each descriptor that was closed. What stands there now would be opened, and read as an empty file, under a
/// name such as /dev/stdin; a socket can't be opened by a name.
pub fn keep_closed() -> io::Result<()> {
    for (descriptor, closed) in (0..).zip(&CLOSED) {
        if closed.load(Ordering::Relaxed) {
            let socket = UnixDatagram::unbound()?;
            // SAFETY: nothing holds the descriptor that is replaced: the standard library only put it there, and uses it by its number.
            if unsafe { dup2(socket.as_raw_fd(), descriptor) } == -1 {
                return Err(io::Error::last_os_error());
            }
        }
    }
    Ok(())
}

fn open_at_start(descriptor: usize) -> io::Result<()> {
    if CLOSED[descriptor].load(Ordering::Relaxed) {
        return Err(io::Error::other("it is closed"));
    }
    Ok(())
}

/// Where a file comes from
#[derive(Clone, Debug, PartialEq, Eq)]
pub enum Source {
    Input,
    File(OsString),
}

impl Source {
    /// By a word of the command line
    pub fn of(word: OsString) -> Source {
        if word == "-" {
            Source::Input
        } else {
            Source::File(word)
        }
    }

    /// The word of the command line
    pub fn word(&self) -> &OsStr {
        match self {
            Source::Input => OsStr::new("-"),
            Source::File(name) => name,
        }
    }

    /// Its bytes up to its end, or the first `most` of them.
    pub fn read(&self, most: usize) -> io::Result<Vec<u8>> {
        let mut bytes = Vec::new();
        self.open()?.take(most as u64).read_to_end(&mut bytes)?;
        Ok(bytes)
    }

    /// `io::Stdin` would take a descriptor that can't be read for an empty file.
    fn open(&self) -> io::Result<File> {
        match self {
            Source::Input => {
                open_at_start(INPUT)?;
                io::stdin().as_fd().try_clone_to_owned().map(File::from)
            }
            Source::File(name) => File::open(name),
        }
    }
}

/// In a message
impl fmt::Display for Source {
    fn fmt(&self, to: &mut fmt::Formatter) -> fmt::Result {
        match self {
            Source::Input => to.write_str("standard input"),
            Source::File(name) => to.write_str(&on_one_line(name)),
        }
    }
}

/// Standard output, without a buffer. `io::Stdout` would take a write that fails on a closed descriptor for done.
pub struct Output(File);

impl Output {
    pub fn open() -> io::Result<Output> {
        open_at_start(OUTPUT)?;
        io::stdout().as_fd().try_clone_to_owned().map(|owned| Output(File::from(owned)))
    }

    pub fn write(&mut self, bytes: &[u8]) -> io::Result<()> {
        self.0.write_all(bytes)
    }

    /// Some file systems tell of a failed write only here.
    pub fn close(self) -> io::Result<()> {
        // SAFETY: the descriptor was this value's own and is nobody's now, so that nothing uses it after it is closed.
        match unsafe { close(self.0.into_raw_fd()) } {
            0 => Ok(()),
            _ => Err(io::Error::last_os_error()),
        }
    }
}

/// Puts a line on standard error. Where that fails there is nowhere to say so; the status stays.
pub fn tell(line: &str) {
    let _ = io::stderr().write_all(format!("{line}\n").as_bytes());
}

/// A fault in the system's words, without the number that the standard library adds.
pub fn reason(fault: &io::Error) -> String {
    let text = fault.to_string();
    text.split(" (os error ").next().unwrap_or_default().to_string()
}
