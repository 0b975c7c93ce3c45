//! The command `drf`: it hands files to the proved core and carries what that says. `help.txt` tells its users what it does.

mod arguments;
mod commands;
mod filenames;
mod files;
mod status;
mod streams;
mod tables;

use arguments::Request;
use status::Status;
use std::io;
use std::process::ExitCode;
use streams::{keep_closed, reason, tell, Output};

const HELP: &str = include_str!("help.txt");

/// The build script sets both.
const VERSION: &str = concat!("drf ", env!("DRF_COMMIT"), "\nkit ", env!("DRF_KIT"), "\n");

fn main() -> ExitCode {
    let status = match arguments::read(std::env::args_os().skip(1)) {
        Ok(request) => answered(request).unwrap_or_else(|fault| {
            tell(&format!("drf: standard output: {}", reason(&fault)));
            Status::Stream
        }),
        Err(wrong) => {
            tell(&format!("drf: {wrong}\ndrf: --help lists commands, options and statuses"));
            Status::Usage
        }
    };
    ExitCode::from(status as u8)
}

/// Standard output is opened before anything is judged: without it there is nobody to tell.
fn answered(request: Request) -> io::Result<Status> {
    keep_closed()?;
    let mut output = Output::open()?;
    let status = match request {
        Request::Run(job) => files::run(&job, &mut output)?,
        Request::Help => output.write(HELP.as_bytes()).map(|()| Status::Done)?,
        Request::Version => output.write(VERSION.as_bytes()).map(|()| Status::Done)?,
    };
    output.close()?;
    Ok(status)
}
